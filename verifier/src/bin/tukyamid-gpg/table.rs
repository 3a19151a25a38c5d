//! The options of gpg 2.2, as `gpg --dump-option-table` prints them, so that any command line is read as gpg reads it;
//! and which of them don't change what is answered here. Names have spaces between them.

/// Options that say what to do.
pub const COMMANDS: &str = "\
    sign clear-sign clearsign detach-sign encrypt encrypt-files symmetric store decrypt decrypt-files verify
    verify-files list-keys list-public-keys list-signatures list-sigs check-signatures check-sigs fingerprint
    list-secret-keys generate-key gen-key quick-generate-key quick-gen-key quick-add-uid quick-adduid
    quick-add-key quick-addkey quick-revoke-uid quick-revuid quick-set-expire quick-set-primary-uid
    full-generate-key full-gen-key generate-revocation gen-revoke delete-keys delete-secret-keys quick-sign-key
    quick-lsign-key quick-revoke-sig sign-key lsign-key edit-key key-edit change-passphrase passwd
    generate-designated-revocation desig-revoke export send-keys receive-keys recv-keys search-keys refresh-keys
    locate-keys locate-external-keys fetch-keys show-keys export-secret-keys export-secret-subkeys export-ssh-key
    import fast-import card-status edit-card card-edit change-pin list-config list-gcrypt-config gpgconf-list
    gpgconf-test list-packets export-ownertrust import-ownertrust update-trustdb check-trustdb fix-trustdb
    list-trustdb dearmor dearmour enarmor enarmour print-md print-mds gen-prime gen-random server tofu-policy
    delete-secret-and-public-keys rebuild-keydb-caches list-key list-sig check-sig show-key
";

/// Those of them that list keys with their validity.
pub const LISTINGS: &str = "\
    list-keys list-key list-public-keys list-signatures list-sigs list-sig check-signatures check-sigs check-sig
    fingerprint
";

/// Options that take a value.
pub const VALUED: &str = "\
    debug debug-level display-charset charset options logger-fd log-file logger-file homedir faked-system-time
    default-key encrypt-to hidden-encrypt-to default-recipient group ungroup compliance default-new-key-algo
    min-rsa-length trust-model photo-viewer known-notation agent-program dirmngr-program limit-card-insert-tries
    temp-directory exec-path default-sig-expire default-cert-expire default-cert-level min-cert-level
    personal-cipher-preferences personal-digest-preferences personal-compress-preferences default-preference-list
    default-keyserver-url default-cert-check-level tofu-default-policy compress-algo compression-algo
    completes-needed marginals-needed max-cert-depth trustdb-name force-ownertrust input-size-hint set-filesize
    set-notation sig-notation cert-notation set-policy-url sig-policy-url cert-policy-url sig-keyserver-url output
    max-output comment set-filename compress-level bzip2-compress-level auto-key-locate keyserver
    keyserver-options key-origin import-options import-filter export-options export-filter list-options
    keyid-format recipient hidden-recipient recipient-file hidden-recipient-file remote-user local-user
    trusted-key sender try-secret-key keyring primary-keyring secret-keyring override-session-key
    override-session-key-fd s2k-mode s2k-digest-algo s2k-cipher-algo s2k-count verify-options disable-cipher-algo
    disable-pubkey-algo cipher-algo digest-algo cert-digest-algo weak-digest status-fd status-file attribute-fd
    attribute-file command-fd command-file passphrase-fd passphrase-file passphrase-repeat pinentry-mode
    request-origin display ttyname ttytype lc-ctype lc-messages xauthority personal-cipher-prefs
    personal-digest-prefs personal-compress-prefs sign-with user gpg-agent-info reader-port ctapi-driver
    pcsc-driver tofu-db-format
";

/// All others, but for `passphrase`, whose value is optional.
pub const FLAGS: &str = "\
    verbose no-verbose quiet no-tty no-greeting debug-all debug-iolbf no-options debug-quick-random no-encrypt-to
    encrypt-to-default-key default-recipient-self no-default-recipient no-groups gnupg no-pgp2 no-pgp6 no-pgp7
    no-pgp8 rfc2440 rfc4880 rfc4880bis openpgp pgp6 pgp7 pgp8 always-trust exit-on-status-write-error
    enable-progress-filter expert no-expert no-secmem-warning require-secmem no-require-secmem
    no-permission-warning dry-run interactive ask-sig-expire no-ask-sig-expire ask-cert-expire no-ask-cert-expire
    ask-cert-level no-ask-cert-level only-sign-text-ids enable-large-rsa disable-large-rsa enable-dsa2
    disable-dsa2 no-expensive-trust-checks allow-non-selfsigned-uid no-allow-non-selfsigned-uid allow-freeform-uid
    no-allow-freeform-uid preserve-permissions lock-once lock-multiple lock-never bzip2-decompress-lowmem
    auto-check-trustdb no-auto-check-trustdb multifile utf8-strings no-utf8-strings no-literal armor armour
    no-armor no-armour default-comment no-comments emit-version no-emit-version no-version not-dash-escaped
    escape-from-lines no-escape-from-lines mimemode textmode no-textmode for-your-eyes-only no-for-your-eyes-only
    show-notation no-show-notation show-session-key use-embedded-filename no-use-embedded-filename unwrap
    mangle-dos-filenames no-mangle-dos-filenames no-symkey-cache skip-verify list-only disable-signer-uid
    no-auto-key-locate auto-key-import no-auto-key-import auto-key-retrieve no-auto-key-retrieve include-key-block
    no-include-key-block disable-dirmngr merge-only allow-secret-key-import show-photos no-show-photos
    show-policy-url no-show-policy-url with-colons with-tofu-info with-key-data with-sig-list with-sig-check
    with-fingerprint with-subkey-fingerprint with-subkey-fingerprints with-icao-spelling with-keygrip with-secret
    with-wkd-hash with-key-origin fast-list-mode fixed-list-mode legacy-list-mode print-pka-records
    print-dane-records show-keyring throw-keyids no-throw-keyids try-all-secrets no-default-keyring no-keyring
    skip-hidden-recipients no-skip-hidden-recipients require-backsigs require-cross-certification
    no-require-backsigs no-require-cross-certification enable-special-filenames no-random-seed-file no-sig-cache
    ignore-time-conflict ignore-valid-from ignore-crc-error ignore-mdc-error override-compliance-check
    allow-weak-key-signatures allow-weak-digest-algos allow-multisig-verification allow-multiple-messages
    no-allow-multiple-messages batch no-batch yes no force-sign-key no-autostart forbid-gen-key require-compliance
    use-only-openpgp-card rfc2440-text no-rfc2440-text use-agent no-use-agent disable-ccid honor-http-proxy strict
    no-strict load-extension sk-comments no-sk-comments compress-keys compress-sigs force-v3-sigs no-force-v3-sigs
    force-v4-certs no-force-v4-certs no-mdc-warning force-mdc no-force-mdc disable-mdc no-disable-mdc help version
    warranty dump-option-table dump-options
";

/// Of the last ones those that don't change the answer.
pub const IGNORED_FLAGS: &str = "\
    no-tty no-greeting no-options no-secmem-warning no-permission-warning no-mdc-warning no-auto-check-trustdb
    auto-check-trustdb no-sk-comments enable-progress-filter exit-on-status-write-error ignore-time-conflict
    ignore-mdc-error disable-dirmngr no-autostart no-auto-key-retrieve no-auto-key-locate fixed-list-mode armor
    armour textmode lock-once lock-multiple lock-never no-random-seed-file no-sig-cache no-show-photos
    no-show-notation no-show-policy-url always-trust no-comments no-emit-version no-version
    require-cross-certification require-backsigs no-expert no-literal no-symkey-cache use-agent openpgp gnupg yes
    no-expensive-trust-checks
";

/// Of those with a value those that don't change the answer.
pub const IGNORED_VALUED: &str = "\
    lc-messages lc-ctype charset display-charset ttyname ttytype display xauthority photo-viewer keyserver
    keyserver-options verify-options keyid-format command-fd command-file trust-model pinentry-mode request-origin
    input-size-hint temp-directory list-options comment local-user default-key compliance passphrase-fd
    passphrase-file attribute-fd attribute-file agent-program dirmngr-program
";

pub const GPGV_VALUED: &str = "keyring output status-fd logger-fd log-file homedir weak-digest debug";
pub const GPGV_FLAGS: &str = "\
    verbose quiet ignore-time-conflict enable-special-filenames help version warranty dump-option-table dump-options
";

/// Whether a list has a name.
pub fn has(list: &str, name: &str) -> bool {
    list.split_ascii_whitespace().any(|one| one == name)
}
