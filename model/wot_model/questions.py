"""Commands that ask about bindings at a view's time, or print what is held."""

from . import absence, script
from .answers import Question, answer
from .edges import Network
from .reasons import Certification, certifications, target_word
from .replies import Refused, words
from .signatures import key_id_hint, read_signature
from .standing import BAD


def ask(machine, name, fingerprint, wanted, user_id):
    view = machine.view(name)
    network = Network(machine.certificates, machine.verdicts, view.time)
    paths = answer(Question(network, view.roots, fingerprint, user_id), wanted, machine.next_path)
    reply = [words("amount", sum(path.amount for path in paths), "paths", len(paths))]
    for path in paths:
        reply.append(words("path", path.amount, "steps", len(path.edges), "root", path.root))
        reply.extend(step_line(edge) for edge in path.edges)
    return reply


def amount_of(machine, view, fingerprint, wanted, user_id):
    network = Network(machine.certificates, machine.verdicts, view.time)
    paths = answer(Question(network, view.roots, fingerprint, user_id), wanted, machine.next_path)
    return sum(path.amount for path in paths)


def step_line(edge):
    return words("step", edge.issuer, edge.target, edge.depth, edge.amount, script.print_user_id(edge.user_id))


def absence_(machine, name, fingerprint, wanted, user_id):
    view = machine.view(name)
    network = Network(machine.certificates, machine.verdicts, view.time)
    question = Question(network, view.roots, fingerprint, user_id)
    paths = answer(question, wanted, machine.next_path)
    amount = sum(path.amount for path in paths)
    if amount >= wanted:
        return [words("absence reached", amount)]
    claims = [absence.claim_of(network, path) for path in paths]
    claim = words("claim", script.print_claims(claims), script.print_table(absence.least_table(question, paths)))
    return [words("absence missed", amount), claim]


def check(machine, name, fingerprint, claims, table, user_id):
    view = machine.view(name)
    network = Network(machine.certificates, machine.verdicts, view.time)
    question = Question(network, view.roots, fingerprint, user_id)
    paths = absence.claimed_paths(question, claims)
    if paths is None:
        return ["checked no paths"]
    if not absence.shows_absence(question, paths, table):
        return ["checked no table"]
    return [words("checked yes", sum(path.amount for path in paths))]


def bindings(machine, view, wanted):
    """The bindings that are authenticated to the wanted amount, in order: fingerprint, user ID and amount."""
    network = Network(machine.certificates, machine.verdicts, view.time)
    for fingerprint, certificate in sorted(machine.certificates.items()):
        for user_id in sorted(certificate.user_ids):
            paths = answer(Question(network, view.roots, fingerprint, user_id), wanted, machine.next_path)
            amount = sum(path.amount for path in paths)
            if amount >= wanted:
                yield fingerprint, user_id, amount


def bind_line(fingerprint, user_id, amount):
    return words("bind", amount, fingerprint, script.print_user_id(user_id))


def list_(machine, name, wanted):
    lines = [bind_line(*binding) for binding in bindings(machine, machine.view(name), wanted)]
    return [words("list", len(lines)), *lines]


def explain(machine, name, fingerprint, user_id):
    view = machine.view(name)
    certificate = machine.certificates.get(fingerprint)
    if certificate is None or user_id not in certificate.user_ids:
        raise Refused("absent")
    network = Network(machine.certificates, machine.verdicts, view.time)
    lines = [
        reason_line(Certification(network, certificate, user_id, body))
        for body in certifications(certificate, user_id)
    ]
    return [words("explain", target_word(network, certificate, user_id), len(lines)), *lines]


def reason_line(certification):
    word, edge = certification.reason()
    shown = (edge.issuer, edge.depth, edge.amount) if edge else ()
    return words("cert", certification.number, word, *shown)


def pending(machine):
    lines = []
    for fingerprint, certificate in sorted(machine.certificates.items()):
        for kind, component, signatures in certificate.places():
            for body in sorted(signatures):
                number = certificate.number(kind, component, body)
                facts = read_signature(body)
                if facts is not None and facts.sound and number not in machine.verdicts:
                    lines.append(words("sig", number, fingerprint, facts.issuer or key_id_hint(body) or "-"))
    return [words("pending", len(lines)), *lines]


def keys(machine):
    lines = [
        words("key", fingerprint, len(certificate.user_ids), certificate.signatures())
        for fingerprint, certificate in sorted(machine.certificates.items())
    ]
    return [words("keys", len(lines)), *lines]


def export(machine, fingerprint):
    if fingerprint not in machine.certificates:
        raise Refused("absent")
    return [words("export", machine.certificates[fingerprint].export())]


def dump(machine):
    lines = [words("import", certificate.export()) for _, certificate in sorted(machine.certificates.items())]
    for number, verdict in sorted(machine.verdicts.items()):
        lines.append(words("verdict", number, "bad") if verdict == BAD else words("verdict", number, "good", verdict))
    for name, view in sorted(machine.views.items()):
        lines.append(words("view", name.decode("ascii"), "time", view.time))
        lines.extend(
            words("view", name.decode("ascii"), "root", fingerprint, amount)
            for fingerprint, amount in sorted(view.roots.items())
        )
    return [words("dump", len(lines)), *lines]
