module kesvuot

go 1.18
