" Made by editors/make of editors/tokens.json: change that, and make it again.
autocmd BufRead,BufNewFile *.orca setfiletype orca
