# Runs whenever nobody else can.
idle:   j idle
