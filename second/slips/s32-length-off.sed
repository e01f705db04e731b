# file: settings.c
# says: the new length is told without the trailer
s/\.written = start + length + TRAILER_BYTES/.written = start + length/
