module ruthvelka.example/examples

go 1.19

require ruthvelka.example/ruthvelka v0.1.0

replace ruthvelka.example/ruthvelka => ../../packaging/go
