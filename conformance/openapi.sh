#!/usr/bin/env bash
# docs/openapi.json beside the program, and docs/openapi-pools.json beside poold, if that is built. It ends with status 1 at the first difference.
#   the document   is what `model/run documents --write` writes; it is valid by openapi-spec-validator, where this machine has it or a package index can be
#                  reached; and by conformance/openapi_3.1_schema.json and the schema of JSON Schema 2020-12, always
#   conversations  random requests: each answer has the status, fields and body that the document says of this operation, and is a refusal by its bytes alone
#                  exactly where the document says so, with the code and the member that it says
#   edges          each member, parameter, id, list and limit at a bound and past it, each with its one status and code
#     conformance/run openapi [--streams N] [--requests N] [--seed N]
set -euo pipefail
top=$(cd "$(dirname "$0")/.." && pwd)
export IPAMD=${IPAMD:-$top/crates/ipamd/out/ipamd} PYTHONDONTWRITEBYTECODE=1
folder=$(mktemp -d)
trap 'rm -rf "$folder"' EXIT
python=
if python3 -c 'import openapi_spec_validator' 2> /dev/null; then
    python3 -m openapi_spec_validator "$top/docs/openapi.json"
    python3 -m openapi_spec_validator "$top/docs/openapi-pools.json"
    python=python3
elif python3 -m venv "$folder" 2> /dev/null && "$folder/bin/pip" install -q --retries 0 --timeout 10 openapi-spec-validator==0.7.1 2> /dev/null; then
    "$folder/bin/python" -m openapi_spec_validator "$top/docs/openapi.json"
    "$folder/bin/python" -m openapi_spec_validator "$top/docs/openapi-pools.json"
    python=$folder/bin/python
else
    echo "openapi: openapi-spec-validator could not be installed; the document is validated by conformance/openapi_3.1_schema.json alone"
    for one in python3 /usr/bin/python3; do
        if [ -z "$python" ] && "$one" -c 'import jsonschema; jsonschema.Draft202012Validator' 2> /dev/null; then python=$one; fi
    done
fi
[ -n "$python" ] || { echo "openapi: no Python has jsonschema 4: apt-get install python3-jsonschema" >&2; exit 1; }
"$python" "$top/conformance/openapi.py" "$@"
if [ -x "${POOLD:-$top/crates/poold/out/poold}" ]; then "$python" "$top/conformance/openapi_pools.py" "$@"; else echo "openapi: poold is not built; docs/openapi-pools.json was not compared with it"; fi
