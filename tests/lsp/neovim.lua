-- Writes what Neovim shows of de.txt, and what formatting it gives, to report.json. The first lines are those of a user's settings.
vim.g.resb_lsp = { '%(python)s', '%(server)s' }
vim.cmd('%(set)s')
vim.cmd('runtime plugin/resb.lua')
vim.cmd('edit de.txt')
vim.wait(100000, function() return #vim.diagnostic.get(0) > 0 end, 20)
local found = {}
for _, it in ipairs(vim.diagnostic.get(0)) do
    table.insert(found, { it.lnum, it.col, it.code or it.user_data.lsp.code, it.message })
end
if vim.lsp.buf.format then
    vim.lsp.buf.format({ timeout_ms = 60000 })
else
    vim.lsp.buf.formatting_sync(nil, 60000)
end
local report = { diagnostics = found, text = vim.api.nvim_buf_get_lines(0, 0, -1, false), filetype = vim.bo.filetype }
vim.fn.writefile({ vim.json.encode(report) }, 'report.json')
vim.cmd('qall!')
