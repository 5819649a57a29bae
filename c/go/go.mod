module cannirupo.example/fmp4

go 1.19
