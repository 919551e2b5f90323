module driver

go 1.19

require ocfexec v0.0.0

replace ocfexec => ../../../examples/go
