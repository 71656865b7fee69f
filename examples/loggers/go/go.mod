module potalog

go 1.19
