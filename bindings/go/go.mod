module yuccaeave.example/urlcheck

go 1.19
