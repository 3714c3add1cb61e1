module nozhgiva

go 1.19
