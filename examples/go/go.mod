module ocfexec

go 1.19
