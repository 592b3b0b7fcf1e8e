module kubereplay

go 1.19
