module luvdregan.example/resb/library/go

go 1.19
