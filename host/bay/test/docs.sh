#!/bin/sh
# The session in docs/bay.md, typed and compared, and the files in data/ that it uses.
. "$(dirname "$0")/lib.sh"

ln -s "$root/host" host
# the port in the text may be taken on this machine, so a free one stands in for it
make_image free.img
port=$(bay serve --port 0 --seconds 1 free.img | sed -n 's/^listening on 127\.0\.0\.1:\([0-9]*\) .*/\1/p')
rm free.img

# What is typed begins with "$ "; all else is what is printed.
awk '/^```/ { typed = $0 == "```console"; next } typed' "$root/docs/bay.md" | sed "s/4000/$port/g" >session

case_ "the session in docs/bay.md prints what it says"
installed bay flashrom
installed bay sigrok-cli
cat >script <<END
bay() { "$BAY_BUILD/bay" "\$@"; }
lay() { "$BAY_BUILD/lay" "\$@"; }
END
sed -n 's/^\$ //p' session | while IFS= read -r line; do
    printf "status=\$?\ncat <<'TYPED'\n\$ %s\nTYPED\n(exit \$status)\n%s\n" "$line" "$line"
done >>script
sh script 2>&1 | grep -v ' is home, ' >got
[ -s session ] || wrong "there is no session"
diff session got >difference || wrong "$(cat difference)"

case_ "each stream in data/ is what its script says"
for script in "$root"/host/bay/data/*.lay "$root"/host/bay/data/*/*.lay; do
    lay <"$script" >laid
    same laid "${script%.lay}.stream"
done

case_ "so is each seed of the fuzz that has one"
for script in "$root"/host/fuzz/lay/*.lay; do
    lay <"$script" >laid
    same laid "$root/host/fuzz/seeds/stream/$(basename "$script" .lay).stream"
done

finish
