package main

func main() {
	x := 2
	if x == 1 {
		x = 10
	} else if x == 2 {
		x = 20
	} else {
		x = 30
	}
}
