# Shared by the tests of the C examples: an example is built over the static library, run, and compared with its stored output.
# The test says which one by `example SOURCE STORED [NAME]`; what is built has this name, or else that of its source. The test defines `run PROGRAM`,
# which runs it with its words, and where something else than the example is to confirm the stored output, `agrees FILE`.

example() {
    source=$1
    stored=$2
    name=${3:-$(basename "$source" .c)}
    folder=target/tests/$name.d
    noticed=0
}

wrong() {
    echo "$name: $1" >&2
    exit 1
}

# says BUILT MESSAGE: this build fails with this message, in the name of its source, and prints nothing else.
says() {
    local said
    if said=$(run "target/tests/$1") || [ "$said" != "$(basename "$source" .c): $2" ]; then wrong "not said: $2"; fi
}

# prints_stored NAME: the built example prints what is stored.
prints_stored() {
    run "target/tests/$1" | diff "$stored" -
}

# prints_stored_in_every_build: as C, as C++ and with sanitizers.
prints_stored_in_every_build() {
    local built
    need_library
    mkdir -p "$folder"
    cp "$source" "$folder/$name.cpp"
    compile "$name" "$source" "${library[@]}"
    compile "$name.cpp" "$folder/$name.cpp" "-I$(dirname "$source")" "${library[@]}"
    compile "$name.sanitized" "$source" "${library[@]}" "${sanitizers[@]}"
    for built in "$name" "$name.cpp" "$name.sanitized"; do
        prints_stored "$built"
        echo "$built: as stored"
    done
}

# edited FILE EDIT: a copy of the file in the example's folder, with this sed edit; it must change something.
edited() {
    local copy
    copy=$folder/$(basename "$1")
    sed -E "$2" "$1" >"$copy"
    cmp -s "$1" "$copy" || return 0
    wrong "an edit changes nothing: $2"
}

# notices_in_stored EDIT...: with each of these sed edits the stored output no longer agrees.
notices_in_stored() {
    local edit
    for edit in "$@"; do
        edited "$stored" "$edit"
        agrees "$folder/$(basename "$stored")" >/dev/null || continue
        wrong "not noticed in the stored output: $edit"
    done
}

# notices EDIT: with this sed edit of the header the example prints something else.
notices() {
    edited include/tariff.h "$1"
    compile "$name.wrong" "$source" "-I$folder" "${library[@]}"
    if prints_stored "$name.wrong" >/dev/null; then
        wrong "not noticed in the header: $1"
    fi
    noticed=$((noticed + 1))
}
