# Sourced by common.sh where root calls: the test runs as another user, on copies that this user reaches wherever the repository is.
user=65534 # nobody
as_user=(setpriv --reuid="$user" --regid="$user" --clear-groups --inh-caps=-all)
mkdir -p "$top/tests" "$top/target/cargo/release" "$top/tmp" &&
    cp -R "$root/tests/programs" "$top/tests" &&
    cp -R "$root/scripts" "$root/examples" "$root/docs" "$root/include" "$root/README.md" "$top" &&
    cp -R "$bin" "$top/target/bin" || stop "$top cannot be written"
for program in driver compare_runs verdict_runs durations_runs cart_runs text_runs; do
    made=$root/target/cargo/release/$program
    [ "$program" != driver ] || made=${FDFA_DRIVER:-$made}
    [ ! -x "$made" ] || cp "$made" "$top/target/cargo/release/$program" || stop "$top cannot be written"
done
unset FDFA_DRIVER
chown -R "$user:$user" "$top" && chmod -R u+rwX,go+rX "$top" || stop "$top cannot be given to another user"
"${as_user[@]}" test -x "$top/tests/programs/$(basename "$0")" ||
    stop "another user cannot reach $top: set TMPDIR to a folder that all may enter"
TMPDIR=$top/tmp HOME=$top/tmp "${as_user[@]}" "$top/tests/programs/$(basename "$0")" "$top/target/bin" $few
exit
