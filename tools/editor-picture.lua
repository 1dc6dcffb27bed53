-- Run by Neovim for tools/editor-picture, which puts sizes and paths in: writes its screen to screen.json.
vim.o.columns, vim.o.lines, vim.o.number, vim.o.signcolumn, vim.o.laststatus = %d, %d, true, 'yes', 2
vim.g.resb_lsp = { '%s', '%s' }
vim.cmd('set runtimepath+=%s | runtime plugin/resb.lua | syntax on | edit de.txt')
vim.wait(20000, function() return #vim.diagnostic.get(0) > 3 end, 20)
local place = { textDocument = vim.lsp.util.make_text_document_params(), position = { line = 7, character = 8 } }
local answers = vim.lsp.buf_request_sync(0, 'textDocument/hover', place, 20000)
vim.api.nvim_win_set_cursor(0, { 8, 8 })
vim.cmd('botright %dnew hover | setlocal nonumber signcolumn=no buftype=nofile')
vim.api.nvim_buf_set_lines(0, 0, -1, false, vim.split(select(2, next(answers)).result.contents.value, '\n'))
vim.cmd('wincmd p | redraw!')
local rows = {}
for row = 1, vim.o.lines - 1 do
    rows[row] = {}
    for column = 1, vim.o.columns do
        rows[row][column] = { vim.fn.screenstring(row, column), vim.fn.screenattr(row, column) }
    end
end
local kinds = {}
for line = 1, vim.fn.line('$') do
    kinds[line] = {}
    for index = 1, vim.fn.strchars(vim.fn.getline(line)) do
        local byte = vim.fn.byteidx(vim.fn.getline(line), index - 1) + 1
        kinds[line][index] = vim.fn.synIDattr(vim.fn.synID(line, byte, 1), 'name')
    end
end
vim.fn.writefile({ vim.json.encode({ rows = rows, kinds = kinds }) }, 'screen.json')
vim.cmd('qall!')
