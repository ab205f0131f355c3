#!/usr/bin/env bash
# Tries the packages in a Debian of its own: makes one by debootstrap, installs both in it, and has try-inside.sh run there, in a chroot with processes and mounts of its own. Then it
# starts that Debian's systemd in such a place, and has try-booted.sh run under it. The output is what was done, and behind each of the two `N passed, M failed`. It wants root, a
# kernel with cgroup2, the network (Debian's mirror), debootstrap and what make deb wants; some 700 MB in TMPDIR, and three to eight minutes.
#
#   packaging/try.sh [BASE]        BASE is a folder that debootstrap has made before; it is copied
#
# In the chroot no systemd runs: there the units are looked at by systemd-analyze, and what they would run is run as their users.
set -euo pipefail
cd "$(dirname "$0")/.."
work=$(mktemp -d)
root=$work/root
booted=
# What runs in the booted Debian ends with the first of its processes, which ends with $booted.
trap '{ [ -z "$booted" ] || kill -9 "$booted"; wait; } 2> /dev/null; rm -rf --one-file-system "$work"' EXIT

packaging/deb.sh > "$work/made"
version=$(sed -n 's|.*out/ciserver_\(.*\)_amd64.deb|\1|p' "$work/made")
packaging/deb.sh "$version+later" > /dev/null
cat "$work/made"
if [ -n "${1-}" ]; then cp -a "$1" "$root"; else debootstrap --variant=minbase bookworm "$root" > /dev/null; fi
mkdir "$root/trial"
cp out/*"_${version}_"* out/*"_${version}+later_"* packaging/try-inside.sh packaging/try-booted.sh "$root/trial"
rm out/*"_${version}+later_"*
.ci/version1 "$root/trial/rows.db"
awk '/^```$/ { if (is_sql) exit } is_sql; /^```sql$/ { is_sql = 1 }' docs/STORE.md | cat - tests/version1.sql | sqlite3 "$root/trial/live.db"
cp /etc/resolv.conf "$root/etc/resolv.conf"
# shellcheck disable=SC2016
unshare --mount --pid --fork --kill-child bash -eu -c '
  mount -t proc proc "$1/proc"
  mount --rbind /dev "$1/dev" && mount --make-rslave "$1/dev"
  exec chroot "$1" env -i PATH=/usr/sbin:/usr/bin:/sbin:/bin LC_ALL=C.UTF-8 DEBIAN_FRONTEND=noninteractive VERSION="$2" PROGRAM="$3" bash /trial/try-inside.sh' \
  try "$root" "$version" "$(sed -n 's/  ciserver-x86_64-linux$//p' dist/SHA256SUMS)"

# That Debian's systemd, with the root as its own: in a chroot it may give its services no users of their own.
mkdir -p "$root/outside"
# shellcheck disable=SC2016
unshare --mount --pid --fork --uts --ipc --cgroup --kill-child bash -eu -c '
  mount --make-rprivate / && mount --bind "$1" "$1" && cd "$1"
  mount -t proc proc proc && mount -t sysfs -o ro sysfs sys && mount -t cgroup2 cgroup2 sys/fs/cgroup
  for folder in run tmp dev; do mount -t tmpfs tmpfs $folder; done
  for name in null zero full random urandom tty; do touch dev/$name && mount --bind /dev/$name dev/$name; done
  mkdir dev/pts dev/shm && mount -t devpts -o newinstance,ptmxmode=0666 devpts dev/pts && ln -s pts/ptmx dev/ptmx
  pivot_root . outside && umount -l outside
  exec env -i container=try PATH=/usr/sbin:/usr/bin:/sbin:/bin /lib/systemd/systemd --log-target=null --unit=multi-user.target' boot "$root" > "$work/booted" 2>&1 &
booted=$!
sleep 2
first=$(cat "/proc/$booted/task/$booted/children")
inside() { nsenter -t "${first% }" --mount --pid --uts --ipc --cgroup --root --wd env -i PATH=/usr/sbin:/usr/bin:/sbin:/bin LC_ALL=C.UTF-8 DEBIAN_FRONTEND=noninteractive VERSION="$version" "$@"; }
for _ in {1..60}; do
  state=$(inside systemctl is-system-running || :)
  if [[ $state == running || $state == degraded ]]; then break; fi
  sleep 1
done
printf '\n== under systemd, which is %s\n' "$state"
inside bash /trial/try-booted.sh
