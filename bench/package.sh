#!/usr/bin/env bash
# package.sh <folder of a release> [<root>]: installs the release's package into a fresh Debian 12 and translates the sample there as a user
# without rights, which has to give the master of docs/COOKBOOK.md within a minute. Then it installs the package again while `bridge follow` runs, which
# has to go on; verifies the units; removes the package, of which nothing may be left; and runs the program of the archive. The fresh system
# is a copy of the folder <root>, or made by debootstrap, which takes minutes that aren't counted.
#
# It wants root, systemd-analyze, and debootstrap with a mirror where no <root> is named.
set -uo pipefail
release=$(realpath "$1")
here=$(cd "$(dirname "$0")/.." && pwd)
work=$(mktemp -d)
trap 'rm -rf "$work"' EXIT
root=$work/root
if [ -n "${2:-}" ]; then cp -a "$2" "$root"; else debootstrap --variant=minbase bookworm "$root" > "$work/log"; fi
failed=0
is() { if [ "$2" = "$3" ]; then echo "ok   $1"; else echo "BAD  $1: $2, wanted $3"; failed=1; fi; }
# A command of a user without rights, in a folder of its own.
user() { chroot "$root" setpriv --reuid=65534 --regid=65534 --clear-groups env -C /try -i PATH=/usr/bin:/bin "$@"; }
install -d -o 65534 "$root/try"
cp "$release"/*.deb "$root/package.deb"
(cd "$release" && sha256sum --quiet -c SHA256SUMS); is 'SHA256SUMS' $? 0

begun=$SECONDS
chroot "$root" dpkg -i /package.deb > "$work/log" 2>&1 || { cat "$work/log"; exit 1; }
user cp /usr/share/manifest-bridge/vod.mpd .
line=$(user bridge hls vod.mpd --base=https://h.example/)
took=$((SECONDS - begun))
is 'the sample' "$line" 'done tracks=5 sections=1 segments=920 left-out=1'
sed -n '/^    #EXTM3U$/,/^    t2\.m3u8$/s/^    //p' "$here/docs/COOKBOOK.md" | cmp -s - "$root/try/out/master.m3u8"; is "the page's master" $? 0
is "$took s to install it and translate the sample, at most 60" $((took <= 60)) 1
line=$(chroot "$root" env -C /try manifest-bridge show vod.mpd --base=https://h.example/ | head -n 1)
is 'the name for root' "$line" 'mpd tracks=5 sections=1 segments=920 left-out=1'
user bridge > "$work/words"; is 'no words, status' $? 2
version=$(chroot "$root" dpkg-query -W manifest-bridge | cut -f 2)
is "manual pages that don't name version $version" "$(zgrep -L "\"manifest-bridge $version\"" "$root"/usr/share/man/man1/*bridge*.gz)" ''
mapfile -t units < <(find "$root/usr/lib/systemd/system" -name "*bridge*" -printf "%f\n" | sort)
# What they stand on is this machine's.
cp -rn /usr/lib/systemd/system "$root/usr/lib/systemd/"
for name in "${units[@]}"; do
    is "$name" "$(systemd-analyze verify --root="$root" --man=no "${name/@./@x.}" 2>&1 | grep -F "${name%%[@.]*}" || true)" ''
done

# A channel that runs goes on with the program that it began with.
mpd() {
    printf '<MPD xmlns="urn:mpeg:dash:schema:mpd:2011" type="dynamic" availabilityStartTime="2024-01-01T00:00:00Z" '
    printf 'timeShiftBufferDepth="PT20S"><Period id="p" start="PT0S"><AdaptationSet mimeType="video/mp4">'
    # shellcheck disable=SC2016
    printf '<Representation id="v" bandwidth="1"><SegmentTemplate duration="2" initialization="i.mp4" media="$Number$.m4s"/>'
    printf '</Representation></AdaptationSet></Period></MPD>'
}
coproc user bridge follow m.mpd --base=https://h.example/ --out=live
from=${COPROC[0]} to=${COPROC[1]}
{ echo "mpd 2024-01-01T00:00:20Z $(mpd | wc -c)"; mpd; } >&"$to"
read -r line <&"$from"; is 'a channel' "$line" 'frame 0 ok appended=10'
chroot "$root" dpkg -i /package.deb >> "$work/log" 2>&1
echo 'tick 2024-01-01T00:00:24Z' >&"$to"
read -r line <&"$from"; is 'the channel over an upgrade' "$line" 'frame 1 ok appended=2'
exec {to}>&-
read -r line <&"$from"; is 'its end' "$line" 'done frames=2 accepted=2'

chroot "$root" dpkg --purge manifest-bridge >> "$work/log" 2>&1
is 'what is left of the package' "$(find "$root/usr" "$root/etc" -name 'bridge*' -o -name '*manifest-bridge*')" ''
tar -C "$root/usr/local" --strip-components=1 --no-same-owner -xf "$release"/*.tar.xz
rm -r "$root/try/out"
is 'the archive' "$(user /usr/local/bin/bridge hls vod.mpd --base=https://h.example/)" 'done tracks=5 sections=1 segments=920 left-out=1'
mapfile -t started < <(sed -n 's/^ExecStart=\([^ ]*\).*/\1/p' "$root"/usr/local/lib/systemd/system/*.service)
for named in "${started[@]}"; do
    [ -x "$root$named" ]; is "$named" $? 0
done
exit $failed
