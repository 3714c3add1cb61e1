module worker

go 1.19

require nozhgiva v0.0.0

replace nozhgiva => ../../../clients/go
