module cimbarohe.invalid/hll

go 1.19
