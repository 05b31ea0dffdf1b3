" Files of Fluent. Vim takes `*.ftl` for FreeMarker in some versions.
autocmd BufNewFile,BufRead *.ftl set filetype=fluent
