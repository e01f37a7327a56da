#!/usr/bin/env bash
# Tests the package for Python:
#
#   python/run_tests.sh
#
# It runs the unit tests of python/tests in each interpreter that PYTHONS names (python3 and
# /usr/bin/python3), from 3.11 on, over one module, which the first of them builds that has its
# headers. All tests run in the last of them, which finds Debian's packages. In another, unless
# VULFSJOR_TEST_HUGE is 1, those that depend on the interpreter run if it is another version of
# Python; test_interpreters.py looks for other versions by itself. `python3 -m unittest discover
# python/tests` does the same in one interpreter. If a tool is missing, its tests are skipped.
set -u
source "$(dirname "$(readlink -f "$0")")/../tests/tap.sh"
[ $# -eq 0 ] || { echo "usage: python/run_tests.sh" >&2 && exit 2; }
tests=$top/python/tests
export PYTHONDONTWRITEBYTECODE=1 VULFSJOR_PACKAGE=$work/package

interpreters=()
for each in ${PYTHONS:-python3 /usr/bin/python3}; do
    full=$("$each" -c 'import sys, sysconfig
print(sys.executable if sys.version_info >= (3, 11) and
      not sysconfig.get_config_var("Py_GIL_DISABLED") else "")' 2>/dev/null)
    case " ${interpreters[*]}  " in *" $full "*) ;; *) interpreters+=("$full") ;; esac
done

# The module, by the first interpreter that can build it. Status 77: none can.
build_module() {
    local each status=77
    for each in "${interpreters[@]}"; do
        "$each" "$tests/support.py" "$VULFSJOR_PACKAGE"
        status=$?
        [ $status -eq 77 ] || return $status
    done
    return 77
}

# The version of Python that an interpreter is, such as 3.11.
python_version_of() { "$1" -c 'import sys; print("%d.%d" % sys.version_info[:2])'; }

# The names of the tests that were skipped, and why. Where a test has a doc comment, its name is on
# the line above.
skipped_test_names_and_reasons() {
    awk '/^test_/ { name = $1 }
        sub(/.* \.\.\. skipped /, "") { print name "|" substr($0, 2, length($0) - 2) }' "$work/log"
}

build_module >"$work/built" 2>&1
case $? in
    0) pass "the package for Python is built" ;;
    77) skip "the package for Python" "no cc, no python3 or no Python.h"; finish ;;
    *) fail "the package for Python is built" "$work/built"; finish ;;
esac
last=$(python_version_of "${interpreters[-1]}")
for each in "${interpreters[@]}"; do
    if [ "$each" = "${interpreters[-1]}" ] || [ -n "${VULFSJOR_TEST_HUGE-}" ]; then
        some=()
    elif [ "$(python_version_of "$each")" = "$last" ]; then
        skip "the tests in $each" "VULFSJOR_TEST_HUGE is not set" && continue
    else
        some=(-ktest_{against_hashlib,api,conformance,files,names,refusals,threads,update_many})
    fi
    check "the tests in $each" in_time "$each" -m unittest discover -v -s "$tests" "${some[@]}"
    while IFS='|' read -r test why; do
        skip "$test in $each" "$why"
    done < <(skipped_test_names_and_reasons)
done
check "wrong uses in Python" env "PYTHONPATH=$VULFSJOR_PACKAGE" "${interpreters[-1]}" "$top/tests/misuse/run.py" python
finish
