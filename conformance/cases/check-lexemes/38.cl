 
	x