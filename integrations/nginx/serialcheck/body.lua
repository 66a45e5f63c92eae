-- The body of the request at hand, in pieces. nginx lets Lua read a body of HTTP/1 with a Content-Length as it comes; a chunked
-- one, and one of HTTP/2, it reads whole first. Either way nginx holds the bytes that were read, in memory or in a file of its
-- own, and hands on these same bytes.
local MOST_PIECE = 65536

-- A body that comes, and one that nginx has read.
local Coming, Whole = {}, {}
Coming.__index, Whole.__index = Coming, Whole

-- What nginx holds of the body: bytes, or the path of a file.
local function held()
    return ngx.req.get_body_data(), ngx.req.get_body_file()
end

-- All bytes that were read, once the reading has ended.
local function all_bytes()
    local bytes, path = held()
    if path then
        local file = assert(io.open(path, "rb"))
        bytes = file:read("*a")
        file:close()
    end
    return bytes or ""
end

Coming.bytes, Whole.bytes = all_bytes, all_bytes

-- The next piece; nil at the end; nil and a status, one that ends the connection, where the rest cannot be read.
function Coming:next()
    if self.left == 0 then
        return nil
    end
    local piece, fault = self.socket:receiveany(math.min(self.left, MOST_PIECE)) -- `receive` would wait for so many
    if not piece then
        return nil, fault == "timeout" and 408 or 400
    end
    self.left = self.left - #piece
    ngx.req.append_body(piece)
    return piece
end

-- Ends the reading.
function Coming:stop()
    ngx.req.finish_body()
end

-- The next piece of nginx's file; nil at its end. That it cannot be read is an error, which nginx answers with 500.
local function piece_of(file)
    local piece, fault = file:read(MOST_PIECE)
    return piece or fault and error("serialcheck: the body cannot be read: " .. fault, 0) or nil
end

function Whole:next()
    local piece = self.piece
    self.piece = self.file and piece_of(self.file)
    return piece
end

function Whole:stop()
    if self.file then
        self.file:close()
    end
end

-- A body that nginx has read; nil where there is none.
local function whole()
    local bytes, path = held()
    if path then
        local file = assert(io.open(path, "rb"))
        local length = file:seek("end")
        file:seek("set")
        return setmetatable({ length = length, file = file, piece = piece_of(file) }, Whole)
    end
    return bytes and setmetatable({ length = #bytes, piece = bytes }, Whole)
end

local body = {}

-- The body, with its `length` in bytes; nil where the request has none.
function body.open()
    local length = tonumber(ngx.var.http_content_length)
    local socket = ngx.req.http_version() < 2 and length and length > 0 and ngx.req.socket()
    if socket then
        ngx.req.init_body()
        return setmetatable({ length = length, left = length, socket = socket }, Coming)
    end
    ngx.req.read_body()
    return whole()
end

return body
