#!/usr/bin/env bash
# Debian packages of the programs and of what is beside them: hallboot (the program, hall-lists, hall-moved, the unit, the loader's files), hallctl (the
# program, completion, man pages), hallview (the program, its unit, alarms and a dashboard) and hall-power. Their man pages are made from the programs' own help.
# Usage: tools/make_deb.sh FOLDER     HALLBOOT=PROGRAM, HALLCTL=PROGRAM and HALLVIEW=PROGRAM name programs that are built already. It wants dpkg-deb, strip and
# gzip; where lintian is there, it looks at the packages.
set -euo pipefail
here=$(cd "$(dirname "$0")" && pwd)
top=$(dirname "$here")
[[ $# = 1 && $1 != -* ]] || { sed -n '2,5p' "$0" >&2; exit 2; }
for word in dpkg-deb strip gzip python3; do
    command -v "$word" > /dev/null || { echo "make_deb: $word is missing" >&2; exit 1; }
done
. "$here/program.sh"
program hallboot
program hallctl
program hallview
mkdir -p "$1"
target=$(cd "$1" && pwd)
work=$(mktemp -d)
trap 'rm -rf "$work"' EXIT
umask 022
version=$("$HALLCTL" --version | sed -E 's/^hallctl ([0-9.]+).*/\1/')-$(TZ=UTC git -C "$top" log -1 --format=%cd --date=format-local:%Y%m%d%H%M%S 2> /dev/null || date -u +%Y%m%d%H%M%S)${VERSION_END:-}
day=$(date -u +%Y-%m-%d)
maintainer='Dalkuxer maintainers <maintainers@users.noreply.dalkuxer.example>'

put() {    # put MODE FILE PATH: the file stands at this path of the package
    install -D -m "$1" "$2" "$root/$3"
}
packed() {    # packed PATH: standard input stands there, packed, as Debian has manuals and change logs
    install -d "$(dirname "$root/$1")"
    gzip -9n > "$root/$1"
    chmod 0644 "$root/$1"
}
begin() {    # begin NAME
    name=$1 root=$work/$1
    mkdir -p "$root/DEBIAN"
    sed -n '/^## Version/,$p' "$top/CHANGELOG.md" | packed "usr/share/doc/$name/changelog.gz"
    printf 'Format: https://www.debian.org/doc/packaging-manuals/copyright-format/1.0/\nUpstream-Name: %s\n\nFiles: *\nCopyright: 2026 %s\nLicense: as-the-repository\n %s\n' \
        hallboot "$maintainer" 'Its terms of use are those of the repository that it was made from.' > "$work/copyright"
    put 0644 "$work/copyright" "usr/share/doc/$name/copyright"
    printf '%s (%s) unstable; urgency=medium\n\n  * Made by tools/make_deb.sh: see changelog.gz.\n\n -- %s  %s\n' \
        "$name" "$version" "$maintainer" "$(date -uR)" | packed "usr/share/doc/$name/changelog.Debian.gz"
}
end() {    # end ARCHITECTURE SECTION DEPENDS SUMMARY [RECOMMENDS]: the description stands at standard input
    for script in postinst prerm postrm; do
        [ ! -e "$top/packaging/$name.$script" ] || put 0755 "$top/packaging/$name.$script" "DEBIAN/$script"
    done
    (cd "$root" && find . -path './etc/*' -type f | sed 's,^\.,,' | sort > DEBIAN/conffiles)
    [ -s "$root/DEBIAN/conffiles" ] || rm -f "$root/DEBIAN/conffiles"
    {
        printf 'Package: %s\nVersion: %s\nArchitecture: %s\nMaintainer: %s\nInstalled-Size: %s\n' \
            "$name" "$version" "$1" "$maintainer" "$(du -sk --exclude=DEBIAN "$root" | cut -f1)"
        [ -z "$3" ] || printf 'Depends: %s\n' "$3"
        [ -z "${5:-}" ] || printf 'Recommends: %s\n' "$5"
        printf 'Section: %s\nPriority: optional\nDescription: %s\n' "$2" "$4"
        sed 's/^/ /; s/^ $/ ./'
    } > "$root/DEBIAN/control"
    (cd "$root" && find . -path ./DEBIAN -prune -o -type f -print | sed 's,^\./,,' | sort | xargs md5sum > DEBIAN/md5sums)
    dpkg-deb --root-owner-group --build "$root" "$target" > /dev/null
}
needs() {    # needs PROGRAM: the libraries that it is linked with, as packages, with a comma behind them
    case $(ldd "$1" 2> /dev/null) in *libc.so*) printf 'libc6 (>= 2.36), ' ;; esac
}

begin hallboot
put 0755 "$HALLBOOT" usr/bin/hallboot
strip --strip-unneeded "$root/usr/bin/hallboot"
put 0755 "$top/lists/hall_lists.py" usr/bin/hall-lists
put 0755 "$top/lists/hall_moved.py" usr/bin/hall-moved
put 0644 "$top/packaging/hallboot.service" lib/systemd/system/hallboot.service
put 0644 "$top/packaging/hallboot.default" etc/default/hallboot
put 0644 "$top/packaging/hallboot.logrotate" etc/logrotate.d/hallboot
put 0644 "$top/loader/autoexec.ipxe" usr/share/hallboot/autoexec.ipxe
put 0755 "$top/live/hall-live" usr/share/hallboot/hall-live
"$here/make_man.py" "$HALLBOOT" hallboot 8 "$version" "$day" | packed usr/share/man/man8/hallboot.8.gz
"$here/make_man.py" "$root/usr/bin/hall-lists" hall-lists 1 "$version" "$day" | packed usr/share/man/man1/hall-lists.1.gz
"$here/make_man.py" "$root/usr/bin/hall-moved" hall-moved 1 "$version" "$day" | packed usr/share/man/man1/hall-moved.1.gz
end amd64 net "$(needs "$HALLBOOT")adduser, python3" 'boot desk of a server hall: proxyDHCP and iPXE scripts' << 'END'
When a server starts over the network, hallboot answers what it should boot:
it gives each machine a loader or an iPXE script (PXE 2.1), and walks it
through commissioning, testing, allocation, deployment, release, erasing,
rescue and repair, as MAAS has them. Its DHCP server's addresses stay yours.
END

begin hallctl
put 0755 "$HALLCTL" usr/bin/hallctl
strip --strip-unneeded "$root/usr/bin/hallctl"
mkdir "$work/made"
"$HALLCTL" completion > "$work/made/hallctl"
put 0644 "$work/made/hallctl" usr/share/bash-completion/completions/hallctl
"$here/make_completion.py" zsh "$HALLCTL" > "$work/made/_hallctl"
put 0644 "$work/made/_hallctl" usr/share/zsh/vendor-completions/_hallctl
"$here/make_completion.py" fish "$HALLCTL" > "$work/made/hallctl.fish"
put 0644 "$work/made/hallctl.fish" usr/share/fish/vendor_completions.d/hallctl.fish
"$here/make_man.py" "$HALLCTL" hallctl 1 "$version" "$day" | packed usr/share/man/man1/hallctl.1.gz
end amd64 net "$(needs "$HALLCTL" | sed 's/, $//')" "operator's client of a server hall's boot desk" << 'END'
Each line of hallctl is one command to the boot desk of a server hall, sent
until the desk has answered: machines are commissioned, allocated, deployed
and released with it, listed and waited for.
END

begin hallview
put 0755 "$HALLVIEW" usr/bin/hallview
strip --strip-unneeded "$root/usr/bin/hallview"
put 0644 "$top/packaging/hallview.service" lib/systemd/system/hallview.service
put 0644 "$top/packaging/hallview.default" etc/default/hallview
for file in hall.rules.yml prometheus.yml grafana.json; do put 0644 "$top/monitoring/$file" "usr/share/hallview/$file"; done
"$here/make_man.py" "$HALLVIEW" hallview 1 "$version" "$day" | packed usr/share/man/man1/hallview.1.gz
end amd64 net "$(needs "$HALLVIEW")adduser" 'pages and metrics of server halls' << 'END'
It asks the boot desks of one server hall or many for their machines, and shows
them: a page for people, metrics for Prometheus, JSON for programs. It never
changes a hall.
END

begin hall-power
put 0755 "$top/power/hall_power.py" usr/bin/hall-power
put 0644 "$top/packaging/hall-power.service" lib/systemd/system/hall-power.service
put 0644 "$top/packaging/hall-power@.service" lib/systemd/system/hall-power@.service
put 0644 "$top/packaging/hall-power.toml" usr/share/doc/hall-power/examples/hall-power.toml
"$here/make_man.py" "$root/usr/bin/hall-power" hall-power 8 "$version" "$day" | packed usr/share/man/man8/hall-power.8.gz
end all net 'python3 (>= 3.11), adduser' "power program of a server hall's boot desk" ipmitool << 'END'
It asks the boot desk of a server hall for power orders, switches machines by
their controllers over IPMI (ipmitool) or Redfish, and answers the desk.
END

ls -1 "$target"/*.deb
if command -v lintian > /dev/null; then
    lintian --fail-on error "$target"/hallboot_"$version"_amd64.deb "$target"/hallctl_"$version"_amd64.deb \
        "$target"/hallview_"$version"_amd64.deb "$target"/hall-power_"$version"_all.deb
fi
