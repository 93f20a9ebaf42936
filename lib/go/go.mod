module magpietuffet.example/vt220

go 1.19
