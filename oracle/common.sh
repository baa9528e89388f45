# What the scripts of this folder share. A script sets `name` and sources this file; `here` is then the folder.
here=$(cd "$(dirname "${BASH_SOURCE[0]}")" && pwd) || exit 1

fail() {
    echo "$name: $1"
    exit 1
}

# Ends the script with status 0 where the Rust's sources or cargo are missing; else says where the sources are.
need_rust() {
    local sources=${FF_SRC_DIR:-${here%/*/*}/shared/docs/src/windows/core/src/dxso} file
    for file in ff.rs emit.rs link.rs; do
        if [ ! -f "$sources/$file" ]; then
            echo "$name: no sources at $sources, skipped"
            exit 0
        fi
    done
    if ! command -v cargo >/dev/null; then
        echo "$name: no cargo, skipped"
        exit 0
    fi
    FF_SRC_DIR=$(cd "$sources" && pwd) || exit 1
    export FF_SRC_DIR
    mkdir -p "$here/target" || exit 1
    log=$here/target/$name.log
}

# Proves and makes the archive where it is missing; YUZUKNOLL_LIB names another one.
need_archive() {
    YUZUKNOLL_LIB=${YUZUKNOLL_LIB:-${here%/*}/target/staticlib/libyuzuknoll.a}
    export YUZUKNOLL_LIB
    [ -f "$YUZUKNOLL_LIB" ] && return
    "$here/../tools/archive" >"$log" 2>&1 && return
    cat "$log"
    fail "no archive"
}

# Runs a quiet command; what it said is shown where it fails.
quietly() {
    "$@" >"$log" 2>&1 && return
    cat "$log"
    fail "not built"
}

# The programs that link the archive, into target/beside/release.
build_beside() {
    cd "$here/beside" || exit 1
    quietly cargo build --release --offline --locked -j2 --target-dir "$here/target/beside"
}
