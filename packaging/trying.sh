# shellcheck shell=bash disable=SC2015,SC2016,SC2034,SC2317
# What packaging/check tries. It is sourced at the top of the repository, with `whole` set or empty.
# In memory, where there is room: what is tried here is no disk. A base system takes more.
room=$(df -k --output=avail /dev/shm 2> /dev/null | tail -n 1)
[ -n "${TMPDIR-}$whole" ] || [ "${room:-0}" -lt 500000 ] || export TMPDIR=/dev/shm
work=$(mktemp -d) left_out=0 keeper='' tried=''
port=$((30000 + $$ * 7 % 9000))
addresses="127.0.0.1:$port"

clean() {
    [ -z "$keeper" ] || kill "$keeper" 2> /dev/null
    clean_image
    rm -rf "$work"
}
trap clean EXIT
trap 'exit 130' INT TERM

fail() { echo "failed: $*" >&2; exit 1; }
passed() { echo "$*"; tried=1; }
leave_out() { echo "left out: $*"; left_out=$((left_out + 1)); }
has() { command -v "$1" > /dev/null; }

# expect STATUS WORDS..: that a command ends so; what it says is in $work/said
expect() {
    local wanted=$1 status=0
    shift
    "$@" > "$work/said" 2>&1 < /dev/null || status=$?
    [ $status = "$wanted" ] || fail "status $status where $wanted is right: $*: $(tail -n 3 "$work/said")"
}

# await SECONDS WORDS..: until a command ends with 0
await() {
    local end=$((SECONDS + $1))
    shift
    until "$@" > "$work/said" 2>&1 < /dev/null; do
        [ $SECONDS -lt $end ] || fail "not within its time: $*: $(tail -n 3 "$work/said")"
        sleep 0.2
    done
}

try_package() {
    has dpkg-deb && has dpkg-shlibdeps || { leave_out "the package: no dpkg-dev"; made=; return; }
    made=$(packaging/deb "$work/deb") || fail "packaging/deb"
    passed "the package: made"
    if [ -n "$whole" ]; then
        cmp -s "$made" "$(packaging/deb "$work/again")" || fail "the same program gives another package"
        passed "the package: made again, the same bytes"
    fi
    if has lintian; then
        # Bytes of machine code or of symbols may happen to spell a word: whether some do differs from build to build.
        expect 0 lintian --fail-on error,warning,info --display-info --allow-root --suppress-tags spelling-error-in-binary "$made"
        ! grep -q '^[EWI]:' "$work/said" || fail "lintian: $(cat "$work/said")"
        passed "lintian: nothing"
    else
        leave_out "lintian"
    fi
    dpkg-deb -x "$made" "$work/root"
    cmp -s "$NOZHGIVA_PROGRAM" "$work/root/usr/lib/nozhgiva/vr_app" || fail "the program isn't put in as it is"
    try_contents
    try_shells
    try_purge
}

# What is in the package is what packaging/files.txt lists, and what is made beside it; no test, and no trial.
try_contents() {
    local home=$work/root/usr/lib/nozhgiva pattern
    local -a listed=(COMMIT KIND vr_app)
    while IFS= read -r pattern; do
        case $pattern in docs/*) continue ;; esac
        for pattern in $pattern; do [ ! -f "$pattern" ] || listed+=("$pattern"); done
    done < <(grep -v -e '^#' -e '^$' packaging/files.txt)
    listed+=(docs/RULES.md) # the other pages are among the system's
    diff <(printf '%s\n' "${listed[@]}" | LC_ALL=C sort -u) <(cd "$home" && find . -type f | sed 's|^\./||' | LC_ALL=C sort) > "$work/said" \
        || fail "what is in the package isn't what packaging/files.txt lists: $(cat "$work/said")"
    ! printf '%s\n' "${listed[@]}" | grep -E '(^|/)(tests?|trials|mutations|bench|house)(/|$)|_test\.|test_' > "$work/said" || fail "tests are in the package: $(cat "$work/said")"
    passed "the package: what packaging/files.txt lists, and no tests in it"
}

# The page for man is as mandoc wants it, and each shell that is here reads what it completes.
try_shells() {
    local share=$work/root/usr/share shell
    local -A files=([bash]=bash-completion/completions/nozhgiva [zsh]=zsh/vendor-completions/_nozhgiva [fish]=fish/vendor_completions.d/nozhgiva.fish)
    if command -v mandoc > /dev/null; then
        gzip -cd "$share/man/man1/nozhgiva.1.gz" | mandoc -T lint > "$work/said" || fail "mandoc finds something in the page for man: $(cat "$work/said")"
    else
        leave_out "mandoc"
    fi
    for shell in "${!files[@]}"; do
        [ -s "$share/${files[$shell]}" ] || fail "the package has nothing that $shell completes"
        if command -v "$shell" > /dev/null; then "$shell" -n "$share/${files[$shell]}" || fail "$shell can't read what it completes"; else leave_out "$shell"; fi
    done
    passed "the package: a page for man, and what bash, zsh and fish complete"
}

# A purge removes what is enabled and what was written, and leaves data files.
try_purge() {
    local root=$work/purged
    mkdir -p "$root/etc/systemd/system/multi-user.target.wants" "$root/etc/nozhgiva" "$root/var/log/nozhgiva" "$root/var/lib/nozhgiva"
    ln -s /usr/lib/systemd/system/nozhgiva@.service "$root/etc/systemd/system/multi-user.target.wants/nozhgiva@0.service"
    touch "$root/etc/nozhgiva/group" "$root/var/log/nozhgiva/0.log" "$root/var/lib/nozhgiva/0"
    expect 0 env DPKG_ROOT="$root" sh packaging/debian/postrm remove
    [ -L "$root/etc/systemd/system/multi-user.target.wants/nozhgiva@0.service" ] || fail "a removal disables the unit, which a new installation starts again"
    expect 0 env DPKG_ROOT="$root" sh packaging/debian/postrm purge
    [ "$(cd "$root" && find . -type f -o -type l)" = ./var/lib/nozhgiva/0 ] || fail "a purge leaves $(cd "$root" && find . -type f -o -type l)"
    rm "$root/var/lib/nozhgiva/0"
    expect 0 env DPKG_ROOT="$root" sh packaging/debian/postrm purge
    [ ! -e "$root/var/lib/nozhgiva" ] && [ ! -e "$root/etc/nozhgiva" ] || fail "a purge leaves empty folders"
    passed "a purge: nothing is left but data files"
}

# The unit, and its words run as they stand, but for the folders.
try_unit() {
    [ -n "$made" ] || return 0
    local home=$work/root command
    # The unit's folders, those of this try.
    sed "s#/usr/lib/nozhgiva#$home/usr/lib/nozhgiva#g" packaging/nozhgiva@.service > "$work/nozhgiva@.service"
    if has systemd-analyze; then
        expect 0 systemd-analyze verify --man=no "$work/nozhgiva@0.service"
        passed "systemd-analyze verify: nothing"
    else
        leave_out "systemd-analyze"
    fi
    mkdir -p "$work/lib" "$work/log"
    # Words by a shell: its $ADDRS is split as that of systemd is.
    command=$(sed -n 's/^ExecStart=//p' "$work/nozhgiva@.service" | sed "s#/var/lib/nozhgiva#$work/lib#; s#/var/log/nozhgiva#$work/log#; s#%i#0#g")
    # shellcheck disable=SC2034 # the words of the unit name it
    local CLUSTER=5 ADDRS=$addresses OPTIONS=
    expect 9 eval "$command"
    grep -q "there is no file $work/lib/0" "$work/said" || fail "where the file isn't there: $(cat "$work/said")"
    passed "a start without a member's file: ends with 9, and makes none"
    nozhgiva() { env -u NOZHGIVA_PROGRAM -u PROGRAM "$home/usr/bin/nozhgiva" "$@"; }
    expect 0 nozhgiva make-member $CLUSTER 0 "$work/lib/0" $ADDRS --v2
    expect 1 nozhgiva make-member $CLUSTER 0 "$work/lib/0" $ADDRS --v2
    eval "$command 2> $work/journal &"
    keeper=$!
    await 60 nozhgiva health "$work/lib/0.socket"
    ask() { printf 'put color green\nget color\n' | nozhgiva ask $CLUSTER $ADDRS --v2; }
    [ "$(ask)" = $'ok\nvalue green' ] || fail "the member of the unit's words doesn't answer"
    expect 0 nozhgiva backup "$work/lib/0" --uncommitted
    grep -q '^uncommitted 2 put color green$' "$work/said" || fail "the backup: $(cat "$work/said")"
    mv "$work/log/0.log" "$work/log/aside"
    sleep 1
    kill -HUP "$keeper"
    await 60 test -e "$work/log/0.log"
    kill "$keeper"
    wait "$keeper" || fail "the keeper ended with $? at TERM: $(tail -n 3 "$work/journal")"
    keeper=
    passed "a member by the unit's words: made by hand, asked, backed up, its log reopened, ended"
    expect 0 nozhgiva --version
    grep -q '^nozhgiva *[0-9]' "$work/said" || fail "--version: $(cat "$work/said")"
    (cd / && expect 0 nozhgiva run put-get && expect 0 nozhgiva explore "$home/usr/lib/nozhgiva/examples/put-get.txt") || exit 1
    [ ! -e "$work/root/usr/lib/nozhgiva/__pycache__" ] || fail "something was written below /usr"
    passed "the command without a clone: version, run, explore"
}

# The base system, as $base.
find_base() {
    [ "$(id -u)" = 0 ] || { leave_out "$1: not root"; return 1; }
    [ -z "${base-}" ] || return 0
    base=${BASE:-$work/base.tar}
    [ -z "${BASE-}" ] || return 0
    has mmdebstrap || { base=; leave_out "$1: no mmdebstrap, and BASE names no base system"; return 1; }
    mmdebstrap --quiet --variant=minbase --include=python3,adduser --dpkgopt=force-unsafe-io stable "$base" 2> "$work/said" || { base=; leave_out "$1: mmdebstrap: $(tail -n 1 "$work/said")"; return 1; }
}

try_base() {
    [ -n "$made" ] && find_base "the package in a base system" || return 0
    local root=$work/base
    mkdir "$root"
    tar -x -C "$root" -f "$base" --exclude='./dev/*' || fail "tar: $base"
    cp "$made" "$root/tmp/"
    inside() { env -u NOZHGIVA_PROGRAM -u PROGRAM unshare --mount --pid --net --fork --kill-child --root="$root" --mount-proc "$@"; }
    mknod -m 666 "$root/dev/null" c 1 3 && mknod -m 666 "$root/dev/urandom" c 1 9 || { leave_out "the package in a base system: no devices can be made"; return 0; }
    expect 0 inside dpkg -i "/tmp/$(basename "$made")"
    [ "$(inside stat -c '%U %a' /var/lib/nozhgiva)" = 'nozhgiva 700' ] || fail "the folder's owner"
    inside sh -c 'PATH=/usr/sbin:/usr/bin:/sbin:/bin; set -e; cd /
        python3 -c "import socket, fcntl, struct; s = socket.socket(); fcntl.ioctl(s, 0x8914, struct.pack(\"16sh14x\", b\"lo\", 0x41))"
        setpriv --reuid nozhgiva --regid nozhgiva --clear-groups nozhgiva make-member 5 0 /var/lib/nozhgiva/0 127.0.0.1:4000 --v2
        setpriv --reuid nozhgiva --regid nozhgiva --clear-groups /usr/lib/nozhgiva/operate/keep --program /usr/lib/nozhgiva/program 5 0 /var/lib/nozhgiva/0 127.0.0.1:4000 &
        keeper=$!
        n=0; until nozhgiva health /var/lib/nozhgiva/0.socket; do n=$((n + 1)); [ $n -lt 100 ]; sleep 0.2; done
        printf "put color green\nget color\n" | nozhgiva ask 5 127.0.0.1:4000 --v2
        kill $keeper; wait $keeper' > "$work/said" 2>&1 < /dev/null || fail "a member in the base system: $(cat "$work/said")"
    grep -q 'value green' "$work/said" || fail "a member in the base system: $(cat "$work/said")"
    expect 0 inside dpkg -i "/tmp/$(basename "$made")"
    # As `systemctl enable` does it.
    mkdir -p "$root/etc/systemd/system/multi-user.target.wants"
    ln -s /usr/lib/systemd/system/nozhgiva@.service "$root/etc/systemd/system/multi-user.target.wants/nozhgiva@0.service"
    expect 0 inside dpkg --purge nozhgiva
    [ ! -L "$root/etc/systemd/system/multi-user.target.wants/nozhgiva@0.service" ] || fail "the unit is enabled still after a purge"
    [ ! -e "$root/etc/nozhgiva" ] || fail "/etc/nozhgiva is left after a purge"
    [ "$(stat -c %s "$root/var/lib/nozhgiva/0")" = 2039808 ] || fail "the data file is gone after a purge"
    [ ! -e "$root/usr/lib/nozhgiva" ] || fail "something is left after a purge: $(find "$root/usr/lib/nozhgiva" | head -n 3)"
    passed "the package in a base system: installed, a member run as its user, installed again, purged; its data file stays"
}

clean_image() { :; }

try_image() {
    [ -n "$made" ] && find_base "the image" || return 0
    for tool in podman runc docker-compose; do has $tool || { leave_out "the image: no $tool"; return 0; }; done
    project=nozhgivatrial$$ image=localhost/nozhgiva-trial-$$ service=
    printf '[containers]\ndefault_ulimits = ["nofile=1024:1024", "nproc=1000:1000"]\n[engine]\ncgroup_manager = "cgroupfs"\nruntime = "runc"\n' > "$work/containers.conf"
    export CONTAINERS_CONF=$work/containers.conf DOCKER_HOST=unix://$work/podman.sock
    clean_image() {
        if [ -n "$service" ]; then
            docker-compose -p "$project" -f "$work/compose.yaml" down -v
            kill "$service"
        fi
        podman network rm -f "$project"
        podman rmi -f "$image" "$image-base"
    } > /dev/null 2>&1
    podman import -q "$base" "$image-base" > "$work/said" 2>&1 || { leave_out "the image: podman import: $(tail -n 1 "$work/said")"; return 0; }
    mkdir -p "$work/context/out" && cp "$made" "$work/context/out/"
    expect 0 podman build -q --format docker --isolation chroot --build-arg BASE="$image-base" -t "$image" -f packaging/Containerfile "$work/context"
    passed "the image: built"
    podman system service --time=0 "$DOCKER_HOST" > /dev/null 2>&1 &
    service=$!
    await 30 test -S "$work/podman.sock"
    # podman tells another IPAM driver of a network than this docker-compose asks for, so the network is made before.
    expect 0 docker-compose -f packaging/compose.yaml config -q
    podman network create --subnet 10.90.0.0/24 "$project" > "$work/said" 2>&1 || { leave_out "the group of compose.yaml: $(tail -n 1 "$work/said")"; return 0; }
    sed "/^    ipam:/d; s#^      config:.*#    external: true\n    name: $project#; s#localhost/nozhgiva#$image#" packaging/compose.yaml > "$work/compose.yaml"
    compose() { docker-compose -p "$project" -f "$work/compose.yaml" "$@"; }
    expect 0 compose up -d member0
    await 60 test "$(podman wait "${project}_member0_1")" = 9
    passed "a container with an empty volume: ends with 9"
    expect 0 compose rm -f member0
    for r in 0 1 2; do expect 0 compose run --rm make$r; done
    expect 0 compose up -d member0 member1 member2
    [ "$(printf 'put color green\nget color\n' | compose run --rm -T client 2> /dev/null | tr -d '\r')" = $'ok\nvalue green' ] || fail "the group of compose.yaml doesn't answer"
    for r in 0 1 2; do expect 0 podman healthcheck run "${project}_member${r}_1"; done
    expect 0 podman stop -t 15 "${project}_member0_1"
    [ "$(echo 'get color' | compose run --rm -T client 2> /dev/null | tr -d '\r')" = 'value green' ] || fail "the group doesn't answer without member 0"
    [ "$(podman inspect -f '{{.State.ExitCode}}' "${project}_member0_1")" = 0 ] || fail "a member that is ended doesn't end with 0"
    passed "the group of compose.yaml: made by hand, started, asked, well, asked without its primary"
}
