"""``python3 -m urlcheck FILE..``: the program ``urlcheck-documents``."""

from .documents import main

if __name__ == "__main__":
    main()
