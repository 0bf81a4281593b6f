# Finds the program: the one built here, or the released one. bin/lib_create, bin/release, bench/measure and .ci/run read this file in,
# with the top of the repository in `root`.

built=$root/crates/lib_create/out/lib_create
released=$root/release/lib_create
manifest=$root/release/manifest

# The SHA-256 of standard input.
digest() {
    sha256sum | cut -d ' ' -f 1
}

# The digest of the sources: that of one line, `DIGEST  PATH`, for crates.txt and each file of a crate's src/, specs/ and proofs/, in the
# order of the bytes of their paths from the top. So it is the same in every folder.
sources_digest() {
    (cd -- "$root" && find crates.txt crates/*/src crates/*/specs crates/*/proofs -type f -print0 | LC_ALL=C sort -z | xargs -0 sha256sum | digest)
}

# noted NAME: what the manifest's line of that name says.
noted() {
    sed -n "s/^$1: //p" "$manifest" 2>/dev/null
}

# Whether no source has changed since the program was built here. A folder counts too: a file may have gone from it.
is_built() {
    [ -x "$built" ] || return 1
    newer=$(find "$root/crates.txt" "$root"/crates/*/src "$root"/crates/*/specs "$root"/crates/*/proofs -newer "$built" 2>/dev/null | head -n 1)
    [ -z "$newer" ]
}

# Whether the released program runs on this sort of machine, is the one of its manifest, and was built from the sources that stand here.
is_released() {
    [ -x "$released" ] && [ "$(uname -sm)" = "Linux x86_64" ] || return 1
    [ "$(noted program)" = "$(digest <"$released")" ] && [ "$(noted sources)" = "$(sources_digest)" ]
}

# The path of the program to run: the one built here, else the released one. It fails where neither is of these sources.
find_program() {
    if is_built; then
        echo "$built"
    elif is_released; then
        echo "$released"
    else
        return 1
    fi
}
