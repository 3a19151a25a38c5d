"""The tables of the SQLite database, and the steps that bring those of an earlier version to this one."""

from .upgrade_steps import Step, drops, fill_subkeys, indexes, statements_of

_FIRST = """
CREATE TABLE certificates (
    id INTEGER PRIMARY KEY,
    fingerprint BLOB NOT NULL UNIQUE,
    key_id BLOB NOT NULL,
    octets BLOB NOT NULL,
    change INTEGER NOT NULL
) STRICT;
CREATE INDEX certificates_by_key_id ON certificates (key_id);

CREATE TABLE user_ids (
    certificate INTEGER NOT NULL REFERENCES certificates ON DELETE CASCADE,
    user_id BLOB NOT NULL,
    address TEXT,
    PRIMARY KEY (certificate, user_id)
) STRICT, WITHOUT ROWID;
CREATE INDEX user_ids_by_address ON user_ids (address) WHERE address IS NOT NULL;
CREATE INDEX user_ids_by_user_id ON user_ids (user_id);

-- Signatures on kept certificates, and verdicts, also on signatures that no kept certificate has. The issuer is NULL
-- where nobody has judged, and no octets where the signature is nobody's.
CREATE TABLE verdicts (
    number BLOB PRIMARY KEY,
    certificate INTEGER REFERENCES certificates,
    depth INTEGER NOT NULL DEFAULT 0,
    issuer BLOB
) STRICT, WITHOUT ROWID;
CREATE INDEX verdicts_by_certificate ON verdicts (certificate);

-- Which key has certified which certificate, and the greatest depth of its trust signatures.
CREATE TABLE certifications (
    issuer BLOB NOT NULL,
    target INTEGER NOT NULL REFERENCES certificates ON DELETE CASCADE,
    depth INTEGER NOT NULL,
    PRIMARY KEY (issuer, target)
) STRICT, WITHOUT ROWID;
CREATE INDEX certifications_by_target ON certifications (target);

CREATE TABLE changes (
    number INTEGER PRIMARY KEY,
    time INTEGER NOT NULL,
    uid INTEGER NOT NULL,
    pid INTEGER NOT NULL,
    what TEXT NOT NULL
) STRICT;

CREATE TABLE sources (
    name TEXT PRIMARY KEY,
    digest BLOB NOT NULL,
    certificates INTEGER NOT NULL,
    fault TEXT NOT NULL
) STRICT, WITHOUT ROWID;
"""

# What a keyring that is larger than an engine is searched by: trust signatures by issuer and by target, which are few,
# and the signatures without a verdict.
_SECOND = """
CREATE INDEX trust_by_issuer ON certifications (issuer, target) WHERE depth > 0;
CREATE INDEX trust_by_target ON certifications (target, issuer) WHERE depth > 0;
CREATE INDEX unjudged_by_certificate ON verdicts (certificate) WHERE issuer IS NULL;
"""

# A third of the room: keys are numbered, and each fingerprint is kept once. The key of number 0 is nobody's, and has no
# octets: it is the issuer of a signature that is bad. Who certified whom is read off the verdicts. What there is of
# everything is counted with each change.
_NUMBERED = """
CREATE TABLE keys (
    id INTEGER PRIMARY KEY,
    fingerprint BLOB NOT NULL UNIQUE
) STRICT;
INSERT INTO keys VALUES (0, x'');

CREATE TABLE new_certificates (
    id INTEGER PRIMARY KEY REFERENCES keys,
    key_id BLOB NOT NULL,
    octets BLOB NOT NULL,
    change INTEGER NOT NULL
) STRICT;

CREATE TABLE new_user_ids (
    certificate INTEGER NOT NULL REFERENCES new_certificates ON DELETE CASCADE,
    user_id BLOB NOT NULL,
    address TEXT,
    PRIMARY KEY (certificate, user_id)
) STRICT, WITHOUT ROWID;

-- The issuer is NULL where nobody has judged, and 0 where the signature is nobody's.
CREATE TABLE new_verdicts (
    number BLOB NOT NULL,
    certificate INTEGER REFERENCES new_certificates,
    depth INTEGER NOT NULL DEFAULT 0,
    issuer INTEGER REFERENCES keys
) STRICT;

CREATE TABLE counts (
    certificates INTEGER NOT NULL,
    octets INTEGER NOT NULL,
    user_ids INTEGER NOT NULL,
    signatures INTEGER NOT NULL,
    verdicts INTEGER NOT NULL,
    pending INTEGER NOT NULL
) STRICT;
"""
_ISSUERS = """INSERT INTO keys (fingerprint) SELECT DISTINCT issuer FROM verdicts
    WHERE length(issuer) > 0 AND certificate {part} ON CONFLICT DO NOTHING"""
_VERDICTS = """INSERT INTO new_verdicts SELECT number, certificate, depth, keys.id
    FROM verdicts LEFT JOIN keys ON keys.fingerprint = verdicts.issuer
    WHERE certificate {part} ORDER BY certificate, number"""
_NEW_NAMES = """
ALTER TABLE new_certificates RENAME TO certificates;
ALTER TABLE new_user_ids RENAME TO user_ids;
ALTER TABLE new_verdicts RENAME TO verdicts;
"""
_NEW_INDEXES = """
CREATE INDEX certificates_by_key_id ON certificates (key_id);
CREATE INDEX user_ids_by_address ON user_ids (address) WHERE address IS NOT NULL;
CREATE INDEX user_ids_by_user_id ON user_ids (user_id);
CREATE UNIQUE INDEX verdicts_by_number ON verdicts (number);
CREATE INDEX verdicts_by_certificate ON verdicts (certificate) WHERE certificate IS NOT NULL;
CREATE INDEX verdicts_by_issuer ON verdicts (issuer, certificate) WHERE issuer > 0;
CREATE INDEX trust_by_issuer ON verdicts (issuer, certificate) WHERE issuer > 0 AND depth > 0;
CREATE INDEX trust_by_target ON verdicts (certificate, issuer) WHERE issuer > 0 AND depth > 0;
CREATE INDEX unjudged_by_certificate ON verdicts (certificate) WHERE certificate IS NOT NULL AND issuer IS NULL;
"""
_COUNTED = """INSERT INTO counts SELECT (SELECT count(*) FROM certificates),
    (SELECT coalesce(sum(length(octets)), 0) FROM certificates),
    (SELECT count(*) FROM user_ids),
    (SELECT count(*) FROM verdicts WHERE certificate IS NOT NULL),
    (SELECT count(*) FROM verdicts WHERE issuer IS NOT NULL),
    (SELECT count(*) FROM verdicts WHERE certificate IS NOT NULL AND issuer IS NULL)
"""
_OF_PART = "> ? AND certificate <= ?"
_THIRD = [
    Step("tables", statements_of(_NUMBERED)),
    Step("keys", ["INSERT INTO keys SELECT id, fingerprint FROM certificates WHERE id > ? AND id <= ?"], rows=True),
    Step("certificates", [
        _ISSUERS.format(part=_OF_PART),
        "INSERT INTO new_certificates SELECT id, key_id, octets, change FROM certificates WHERE id > ? AND id <= ?",
        f"INSERT INTO new_user_ids SELECT certificate, user_id, address FROM user_ids WHERE certificate {_OF_PART}",
        _VERDICTS.format(part=_OF_PART)], rows=True),
    Step("verdicts on other signatures", [_ISSUERS.format(part="IS NULL"), _VERDICTS.format(part="IS NULL")]),
    *drops("certifications", "verdicts", "user_ids", "certificates"),
    Step("names", statements_of(_NEW_NAMES)), *indexes(_NEW_INDEXES), Step("counts", [_COUNTED]),
]

# Which certificates have a subkey of this key ID: signatures on data are mostly made by subkeys.
_FOURTH = """
CREATE TABLE subkeys (
    certificate INTEGER NOT NULL REFERENCES certificates ON DELETE CASCADE,
    key_id BLOB NOT NULL,
    PRIMARY KEY (certificate, key_id)
) STRICT, WITHOUT ROWID;
CREATE INDEX subkeys_by_key_id ON subkeys (key_id);
"""

# Which certificates the verifier has to look at since which change, and which wait for a key with this ID; and how far
# the files of large keyrings are loaded.
_FIFTH = """
CREATE TABLE unlooked (
    certificate INTEGER PRIMARY KEY REFERENCES certificates ON DELETE CASCADE,
    change INTEGER NOT NULL
) STRICT;

CREATE TABLE awaited (
    key_id BLOB NOT NULL,
    certificate INTEGER NOT NULL,
    PRIMARY KEY (key_id, certificate)
) STRICT, WITHOUT ROWID;

CREATE TABLE loaded (
    name TEXT NOT NULL,
    file BLOB NOT NULL,
    stamp TEXT NOT NULL,
    octets INTEGER NOT NULL,
    size INTEGER NOT NULL,
    digest BLOB NOT NULL,
    certificates INTEGER NOT NULL,
    fault TEXT NOT NULL,
    PRIMARY KEY (name, file)
) STRICT, WITHOUT ROWID;
"""
_UNLOOKED = f"""INSERT INTO unlooked SELECT DISTINCT certificate, 0 FROM verdicts
    WHERE certificate {_OF_PART} AND issuer IS NULL"""

# What brings a database from each version to the next; version 0 is an empty file.
MIGRATIONS = ([Step("tables", statements_of(_FIRST))], indexes(_SECOND), _THIRD,
              [Step("tables", statements_of(_FOURTH)), Step("subkeys", rows=True, fill=fill_subkeys)],
              [Step("tables", statements_of(_FIFTH)), Step("what isn't verified", [_UNLOOKED], rows=True)])


def steps_from(version: int) -> list[Step]:
    return [step for migration in MIGRATIONS[version:] for step in migration]
