"""The program ``urlcheck-documents``: its arguments, a project's configuration, and processes that read documents."""
