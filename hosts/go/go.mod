module cedar

go 1.19
