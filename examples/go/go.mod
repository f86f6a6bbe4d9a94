module distinct

go 1.19

require cimbarohe.invalid/hll v0.2.0

replace cimbarohe.invalid/hll v0.2.0 => ./hll
