"""Commands that change certificates and verdicts, and those that load and store entries of the directory."""

from .certificates import CertificateFault, assemble
from .packets import PacketFault, read_packets
from .replies import Refused, words
from .shelf import LONGEST_ENTRY, TRUST_ROOT
from .standing import BAD


def read_certificates(octets):
    """The certificates of these octets, and how many keys were skipped."""
    try:
        return assemble(read_packets(octets))
    except PacketFault as fault:
        raise Refused("packet", fault.why, fault.at) from None
    except CertificateFault as fault:
        raise Refused(*fault.words) from None


def import_(machine, octets):
    return take(machine, *read_certificates(octets))


def load(machine, name):
    certificate = read_entry(machine, name)
    if certificate is None:
        raise Refused("absent")
    return take(machine, [certificate], 0)


def read_entry(machine, name):
    """The one certificate of an entry; None if there is no entry."""
    octets = machine.shelf.read(name)
    if octets is None:
        return None
    if len(octets) > LONGEST_ENTRY:
        raise Refused("long")
    certificates, skipped = read_certificates(octets)
    if len(certificates) != 1 or skipped or name not in (TRUST_ROOT, certificates[0].fingerprint):
        raise Refused("misfiled")
    return certificates[0]


def store(machine, fingerprint):
    union = machine.certificates.get(fingerprint)
    if union is None:
        raise Refused("absent")
    entry = read_entry(machine, fingerprint)
    if entry is not None:
        if entry.body != union.body:
            raise Refused("clash")
        union = union.united(entry)
        machine.check_limit("certificate", union.size)
    octets = union.export()
    machine.shelf.replace(fingerprint, octets)
    return [words("ok stored", len(octets))]


def take(machine, certificates, skipped):
    united, fresh = unite(machine.certificates, certificates)
    if fresh:
        check_keyring(machine, {**machine.certificates, **united})
        machine.count_change()
    machine.certificates.update(united)
    return [words("ok taken", len(certificates), "skipped", skipped, "new", fresh)]


def unite(kept, certificates):
    """The kept certificates of the same keys, merged with these, and how many things are new."""
    united = {}
    fresh = 0
    for certificate in certificates:
        fingerprint = certificate.fingerprint
        before = united.get(fingerprint) or kept.get(fingerprint)
        if before is None:
            after = certificate
        elif before.body != certificate.body:
            raise Refused("clash")
        else:
            after = before.united(certificate)
        fresh += after.items() - (before.items() if before else 0)
        united[fingerprint] = after
    return united, fresh


def check_keyring(machine, certificates):
    sizes = [certificate.size for certificate in certificates.values()]
    machine.check_limit("certificate", max(sizes))
    machine.check_limit("certificates", len(sizes))
    machine.check_limit("octets", sum(sizes))
    machine.check_limit("signatures", sum(each.signatures() for each in certificates.values()))


def drop(machine, fingerprint):
    if machine.certificates.pop(fingerprint, None) is None:
        raise Refused("absent")
    machine.count_change()
    return ["ok"]


def set_verdict(machine, number, verdict):
    machine.check_limit("verdicts", len(machine.verdicts.keys() | {number}))
    if machine.verdicts.get(number) != verdict:
        machine.count_change()
    machine.verdicts[number] = verdict
    return ["ok"]


def set_bad(machine, number):
    return set_verdict(machine, number, BAD)


def clear_verdict(machine, number):
    if machine.verdicts.pop(number, None) is None:
        raise Refused("absent")
    machine.count_change()
    return ["ok"]
