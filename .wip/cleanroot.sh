set -eu
R=/tmp/rootnew; rm -rf $R
mmdebstrap --variant=minbase bookworm $R $(ls /etc/apt/sources.list.d/*.sources /etc/apt/sources.list 2>/dev/null | head -0) < /dev/null 2>&1 | tail -2 || true
[ -d $R/usr ] || { apt-config dump | grep -i proxy; cat /etc/apt/sources.list /etc/apt/sources.list.d/* | mmdebstrap --variant=minbase bookworm $R - 2>&1 | tail -3; }
cp -a /etc/apt/apt.conf.d/. $R/etc/apt/apt.conf.d/ 2>/dev/null || true
cat /etc/apt/sources.list /etc/apt/sources.list.d/*.list 2>/dev/null > $R/etc/apt/sources.list || true
cp -a /etc/apt/sources.list.d/. $R/etc/apt/sources.list.d/ 2>/dev/null || true
cp /etc/resolv.conf $R/etc/ 2>/dev/null || true
mkdir $R/src $R/lib-built; git -C "$1" archive HEAD | tar -x -C $R/src; cp "$1"/target/library/libbelt.a $R/lib-built/
mount -t proc proc $R/proc; mount --bind /dev $R/dev
date
time chroot $R env -i PATH=/usr/sbin:/usr/bin:/sbin:/bin HOME=/root http_proxy="${http_proxy:-}" https_proxy="${https_proxy:-}" BELT_LIB=/lib-built /src/tools/install
date
chroot $R env -i PATH=/usr/local/bin:/usr/bin:/bin HOME=/root sh -c 'belt --version; cd /tmp; belt demo /tmp/d | tail -5; ls /tmp/d; /src/tools/install --uninstall; ls /usr/local/bin'
umount $R/proc $R/dev
