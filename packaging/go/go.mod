module ruthvelka.example/ruthvelka

go 1.19
