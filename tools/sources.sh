# For bin/kbsim, bin/prove and bin/test: which sources the program is made from, and where its programs are kept.
# root is the top of the repository.
kept=$root/out/kbsim

# its_crates FOLDER: the crates that the program stands on, and itself (crates.txt has the lowest first).
its_crates() {
    tac "$1/crates.txt" | awk -F: '
        BEGIN { needed["kbsim_cli"] = 1 }
        needed[$1] { print $1; count = split($2, below, " "); for (i = 1; i <= count; i++) needed[below[i]] = 1 }'
}

# sum_of_names: one checksum of the files whose names, each with a NUL behind it, are read.
sum_of_names() { LC_ALL=C sort -z | xargs -0 -r sha256sum | sha256sum | cut -c1-24; }

# files_of_plain FOLDER: the files of plain Rust, a NUL behind each name: where git knows, all but those that it ignores.
files_of_plain() {
    (cd "$1/rust" && unset GIT_DIR GIT_WORK_TREE GIT_INDEX_FILE && {
        [ "$(git rev-parse --show-prefix 2>/dev/null)" = rust/ ] &&
            git ls-files -z --cached --others --exclude-standard | while IFS= read -rd '' name; do [ ! -f "$name" ] || printf '%s\0' "$name"; done
    } || find . \( -name target -o -name out \) -prune -o -type f -printf '%P\0')
}

# sum_of_proved FOLDER: the checksum of all that a proof of the program reads in a copy of the repository.
sum_of_proved() {
    local names name paths=()
    mapfile -t names < <(its_crates "$1")
    for name in "${names[@]}"; do paths+=("crates/$name/src" "crates/$name/specs" "crates/$name/proofs"); done
    {
        for name in "${names[@]}"; do grep "^$name:" "$1/crates.txt"; done
        # (not each crate has each of the folders)
        (cd "$1" && { find "${paths[@]}" \( -name target -o -name out \) -prune -o -type f -print0 2>/dev/null || true; } | sum_of_names)
    } | sha256sum | cut -c1-24
}

# copy_of_proved FOLDER: copies there what a proof of the program reads, and has its checksum, which is that of the copy: a file
# that is saved later is not taken for what was built.
copy_of_proved() {
    local names name part
    mapfile -t names < <(its_crates "$root" | tac)
    for name in "${names[@]}"; do
        grep "^$name:" "$root/crates.txt" >>"$1/crates.txt"
        mkdir -p "$1/crates/$name"
        for part in src specs proofs; do
            if [ -e "$root/crates/$name/$part" ]; then cp -r "$root/crates/$name/$part" "$1/crates/$name"; fi
        done
    done
    sum_of_proved "$1"
}

# keep FILE NAME: keeps a file under this name, whole or not at all, for each user to read and to run. Of other programs that were
# made the same way the newest two stay.
keep() {
    local part
    (umask 022 && mkdir -p "$kept")
    part=$(mktemp "$kept/part-XXXXXX")
    cp "$1" "$part" && chmod 755 "$part" && mv "$part" "$kept/$2" || { rm -f "$part" && return 1; }
    find "$kept" -maxdepth 1 -name "${2%%-*}-*" ! -name "$2" -printf '%T@ %p\0' |
        LC_ALL=C sort -zrn | sed -z '1,2d; s/[^ ]* //' | xargs -0 -r rm -f || true
}
