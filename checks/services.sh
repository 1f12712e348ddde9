#!/usr/bin/env bash
# Feeds frames through pipes to the built programs that are services, and compares the bytes that they say and their status.
#   checks/services.sh [FOLDER]      FOLDER has the crates, whose programs `rt run` builds; without it that of this repository
# A service whose program isn't there is left out, and said so. The last line is 'N passed, M failed'.
set -uo pipefail
crates=$(realpath "${1:-$(dirname "$0")/../crates}")
passed=0
failed=0

boot=0000001e010000000000010100000000000000000001ade0b876903df1a0e56a5d40
token=0000000000000001ade0b876903df1a0e56a5d40
get=000000310200000028474554202f677565737420485454502f312e310d0a486f73743a206c6f63616c686f73740d0a0d0a00000000
opened=000000050400000000
rows=000000280502000000020100000000000000010200000003616e6e0100000000000000020200000003626f62

# bytes DIGITS: the bytes of these hexadecimal digits, of which spaces are dropped.
bytes() { xxd -r -p <<<"${1// /}"; }

# says NAME STATUS WANTED HEARD WORD ..: a service that hears these frames says these bytes and ends with this status.
says() {
    local name=$1 wanted_status=$2 wanted=${3// /} heard=$4 said status
    shift 4
    said=$(bytes "$heard" | timeout 60 "$crates/$name/out/$name" "$@" | xxd -p | tr -d '\n'; exit "${PIPESTATUS[1]}")
    status=$?
    if [ "$said" = "$wanted" ] && [ "$status" = "$wanted_status" ]; then
        passed=$((passed + 1))
    else
        failed=$((failed + 1))
        echo "$name $*: status $status, said $said, not $wanted"
    fi
}

# asks NAME WORD: as a server that feeds one frame, and the next only once the service has said something.
asks() {
    local name=$1 word=$2 said
    coproc service { timeout 60 "$crates/$name/out/$name" "$word" "$word"; }
    exec 5<&"${service[0]}" 6>&"${service[1]}" {service[1]}>&-
    bytes "$boot" >&6
    for _ in 1 2; do
        bytes "$get" >&6
        said=$(head -c $((${#word} / 2)) <&5 | xxd -p | tr -d '\n')
        if [ "$said" = "$word" ]; then
            passed=$((passed + 1))
        else
            failed=$((failed + 1))
            echo "$name $word, asked one frame at a time: said $said"
        fi
    done
    exec 6>&- 5<&-
    wait "$service_PID" || { failed=$((failed + 1)); echo "$name $word, asked one frame at a time: status $?"; }
}

if [ -x "$crates/svc_probe/out/svc_probe" ]; then
    says svc_probe 0 "" ""
    says svc_probe 0 "" "$boot$get"
    says svc_probe 0 0000 "$boot$get" 0000
    says svc_probe 0 "00000017410000$token" "$boot$get" 00000017410000t
    says svc_probe 0 "00000017410000${token}0000000a42000000000000000100" "$boot$get$opened$rows$get" 00000017410000t 0000000a42000000000000000100
    says svc_probe 0 01 "$boot$get$get$get" 01 end 02
    says svc_probe 1 "" "$get" 01
    says svc_probe 1 "" "${boot}0000000141" 01
    says svc_probe 2 "" "$boot$get" 01 0g
    asks svc_probe 0000000744000000026869
else
    echo "svc_probe isn't built"
fi
if [ -x "$crates/svc_guest/out/svc_guest" ]; then
    open=00000017410000$token
    select=0000000a42000000000000000100
    listed=0000001f4500c80a746578742f706c61696e000000000c3120616e6e0a3220626f620a
    filled=000000254500c809746578742f68746d6c00000000133c703e3120616e6e0a3220626f620a3c2f703e
    page=0000001c030470616765000000010000000e3c703e407b726f77737d3c2f703e
    head=$(printf 'POST /guest HTTP/1.1\r\nHost: localhost\r\n\r\n' | xxd -p | tr -d '\n')
    form=$(printf 'id=3&who=cy&note=x' | xxd -p | tr -d '\n')
    post=$(printf '%08x02%08x%s%08x%s' $((9 + (${#head} + ${#form}) / 2)) $((${#head} / 2)) "$head" $((${#form} / 2)) "$form")
    insert=000000204200000000000000020301000000000000000302000000026379020000000178
    log=0000000b4400000006706f73742033
    there=0000001945012f0a746578742f706c61696e062f677565737400000000
    taken=000000194501990a746578742f706c61696e000000000674616b656e0a
    says svc_guest 0 "" ""
    says svc_guest 0 "$open$select$listed" "$boot$get$opened$rows"
    says svc_guest 0 "$open$select$filled" "$boot$page$get$opened$rows"
    says svc_guest 0 "$open$insert$log$there" "$boot$post${opened}000000090600000000000000010000000108"
    says svc_guest 0 "$open$insert$taken" "$boot$post${opened}000000010c"
    says svc_guest 1 "" "$get"
    says svc_guest 1 "$open" "$boot$get$rows"
    says svc_guest 1 "" "${boot}0000000141"
else
    echo "svc_guest isn't built"
fi
echo "$passed passed, $failed failed"
[ "$failed" = 0 ]
