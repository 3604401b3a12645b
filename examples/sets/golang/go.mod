module sets

go 1.19
