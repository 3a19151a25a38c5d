"""The certificates of a case as the plain model reads them: what is no certificate is left out, and those of one key
are merged."""

from wot_model.certificates import CertificateFault, assemble
from wot_model.packets import PacketFault, read_packets
from written import certificates


def held(case):
    found = {}
    for octets in certificates(case):
        try:
            read = assemble(read_packets(octets))[0]
        except (PacketFault, CertificateFault):
            continue
        for certificate in read:
            known = found.get(certificate.fingerprint)
            found[certificate.fingerprint] = known.united(certificate) if known else certificate
    return list(found.values())
