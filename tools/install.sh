#!/usr/bin/env bash
# Installs the programs that the tools and checks use, where it may: as root, by apt-get. It says what is still missing,
# and then its status is 1. Nothing else in the repository installs anything: a check whose programs are missing says so.
set -u

# program:package
wanted=(python3:python3 oggenc:vorbis-tools ogginfo:vorbis-tools oggdec:vorbis-tools sox:sox oggz-info:oggz-tools
    opusenc:opus-tools /usr/bin/time:time)

# missing: the pairs of which the program is not there
missing() {
    local pair
    for pair in "${wanted[@]}"; do
        if ! command -v "${pair%:*}" >/dev/null; then echo "$pair"; fi
    done
}

get() {
    DEBIAN_FRONTEND=noninteractive apt-get -qq -o Acquire::Retries=0 -o Acquire::http::Timeout=20 "$@" >/dev/null 2>&1
}

if [ -n "$(missing)" ] && [ "$(id -u)" = 0 ] && command -v apt-get >/dev/null; then
    mapfile -t packages < <(missing | cut -d: -f2 | sort -u)
    echo "installing ${packages[*]}" >&2
    if ! get install -y --no-install-recommends "${packages[@]}"; then
        # the lists of packages may be missing or old, and one package may be wanting
        if get -o APT::Update::Error-Mode=any update; then
            for package in "${packages[@]}"; do get install -y --no-install-recommends "$package"; done
        fi
    fi
fi
status=0
while IFS=: read -r program package; do
    echo "missing: $program, of the package $package" >&2
    status=1
done < <(missing)
exit "$status"
