" Reads the messages in errors.txt by Vim's default formats, goes to the first place, and writes down the file, the line and the column
" there, and how many places were found. The column counts bytes from 1.
cfile errors.txt
let places = filter(getqflist(), 'v:val.valid')
call writefile([bufname('%'), line('.'), col('.'), len(places)], 'place.txt')
qall!
