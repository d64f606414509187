"""The OpenAPI documents of the two programs, as files: docs/openapi.json and docs/openapi-pools.json.

    model/run documents              says whether the files are what would be written
    model/run documents --write      writes them
"""
import os
import sys

sys.path.insert(0, os.path.dirname(os.path.dirname(os.path.abspath(__file__))))
from model import openapi_document, openapi_pools_document

MADE = {"docs/openapi.json": openapi_document, "docs/openapi-pools.json": openapi_pools_document}


def written(path):
    """The text of the document that this file has."""
    return openapi_document.written(MADE[path].document())


def read(path):
    """The text of the file, which ends the program if it is another one."""
    with open(os.path.join(openapi_document.TOP, path), encoding="utf-8") as file:
        text = file.read()
    if text != written(path):
        sys.exit(f"{path} is not what model/run documents --write writes")
    return text


def main():
    for path in MADE:
        if sys.argv[1:] == ["--write"]:
            with open(os.path.join(openapi_document.TOP, path), "w", encoding="utf-8") as file:
                file.write(written(path))
        else:
            read(path)


if __name__ == "__main__":
    main()
