-- Draws a line of labels(1) as SVG: luajit svg.lua /usr/include/labels.ffi.h 'qr,level=Q HELLO'
local ffi = require("ffi")
local header, text = ...
ffi.cdef(assert(io.open(header)):read("*a"))
local labels = ffi.load("liblabels.so.1")

local modules = ffi.new("unsigned char[?]", labels.LABELS_MAX_MODULES)
local info, answer = ffi.new("labels_symbol_info"), ffi.new("labels_answer")
if labels.labels_line(nil, text, #text, modules, labels.LABELS_MAX_MODULES, info, answer) ~= labels.LABELS_OK then
    io.stderr:write(ffi.string(answer.message), "\n")
    os.exit(1)
end
local width, height = info.left + info.width + info.right, info.top + info.height + info.bottom
local high = info.height / info.rows
local path = {}
for y = 0, info.rows - 1 do
    for x = 0, info.width - 1 do
        if modules[y * info.width + x] == 1 then
            table.insert(path, ("M%d %dh1v%dh-1z"):format(info.left + x, info.top + y * high, high))
        end
    end
end
local svg = "<svg xmlns='http://www.w3.org/2000/svg' viewBox='0 0 %d %d' width='%d'>"
    .. "<path fill='white' d='M0 0h%dv%dh-%dz'/><path d='%s'/></svg>"
print(svg:format(width, height, 4 * width, width, height, width, table.concat(path)))
