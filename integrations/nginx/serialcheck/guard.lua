-- Guards of request bodies: a body passes where it is one Java serialization stream that the guard's filter admits.
--
--     in init_by_lua_block         require("serialcheck.guard").add(NAME, SETTINGS)
--     in init_worker_by_lua_block  require("serialcheck.guard").watch()
--     in access_by_lua_block       require("serialcheck.guard").check(NAME)
--     in content_by_lua_block      require("serialcheck.guard").show()
local Library = require("serialcheck.library")
local body = require("serialcheck.body")
local counts = require("serialcheck.counts")
local filter_file = require("serialcheck.filter_file")
local quarantine = require("serialcheck.quarantine")
local settings = require("serialcheck.settings")

-- A worker looks at each filter file once in so many seconds.
local LOOK_EVERY = 1
-- The location that answers where a body is refused. What was not read of the body must not be taken for a next request, so it
-- ends the connection. Where it is missing nginx answers 500, and ends the connection too.
local REFUSED = "@serialcheck_refused"

local Guard = {}
Guard.__index = Guard

-- Takes a filter. Where there is none, the filter stays as it was: false, and what is wrong.
function Guard:take(filter, fault)
    self.filter = filter or self.filter
    return filter ~= nil, fault
end

-- The filter of the bytes of a file, or of a text, which is read as a file is.
function Guard:filter_of(bytes)
    return self.library:filter(bytes, self.settings.strict, self.settings.anywhere)
end

-- Takes the filter of the file, where it is not as it was seen last: whether it did, and what is wrong.
function Guard:take_file()
    local bytes, fault = filter_file.bytes(self.settings.filterFile)
    local seen = bytes or fault
    if seen == self.seen then
        return false
    end
    self.seen = seen
    if bytes then
        return self:take(self:filter_of(bytes))
    end
    return false, fault
end

-- Looks whether the filter file has changed.
function Guard:look()
    local is_taken, fault = self:take_file()
    if is_taken then
        self:log(ngx.NOTICE, "the filter is that of ", self.settings.filterFile, " as it is now")
    elseif fault then
        self:log(ngx.ERR, "the filter stays as it was: ", fault)
    end
end

-- Reads a body and judges it: the refusal, or nil. Reading stops with a refusal that is not only reported. Behind it stands a
-- status where the body could not be read.
function Guard:judged(coming)
    local stream = self.filter:stream()
    local refusal = coming.length > self.settings.most and self.too_long or nil
    local piece, fault
    while not refusal or self.reports do
        piece, fault = coming:next()
        if not piece then
            break
        end
        refusal = refusal or stream:feed(piece)
    end
    if not refusal and not fault then
        refusal = stream:finish()
    end
    stream:free()
    coming:stop()
    return refusal, fault
end

-- Counts and logs a refusal, and keeps the body aside where that is wanted.
function Guard:tell(refusal, coming)
    local bytes = refusal ~= self.too_long and coming:bytes() or ""
    local class = refusal.answer and refusal:class(bytes)
    counts.add_no(self.name, refusal.reason, class)
    self:log(ngx.ERR, self.reports and "reported: " or "refused: ", refusal.line, class and " " .. class or "", self:kept(bytes))
end

-- Keeps bytes aside, where that is wanted: what the log says of it.
function Guard:kept(bytes)
    if self.settings.onRefusal ~= "quarantine" or bytes == "" then
        return ""
    end
    local path, fault = quarantine.keep(self.settings.quarantine, self.settings.quarantineMost, self.name, bytes)
    return path and ", kept as " .. path or ", not kept: " .. fault
end

function Guard:log(level, ...)
    ngx.log(level, "serialcheck: ", self.name, ": ", ...)
end

function Guard:check()
    local coming = body.open()
    if not coming then
        return
    end
    local refusal, fault = self:judged(coming)
    if fault then
        return ngx.exit(fault)
    elseif not refusal then
        return counts.add_yes(self.name)
    end
    self:tell(refusal, coming)
    if not self.reports then
        return ngx.exec(REFUSED)
    end
end

local guards = {}
local guard = {}

-- Makes a guard. An error, with which nginx does not start, says what is wrong with the settings or the filter.
function guard.add(name, given)
    local chosen = settings.of(name, given)
    counts.need_dictionary()
    local made = setmetatable({
        name = name,
        settings = chosen,
        library = Library.open(chosen.library),
        reports = chosen.onRefusal == "report",
        too_long = { reason = "TooLong", line = "longer than " .. chosen.most .. " bytes" },
    }, Guard)
    local is_taken, fault
    if chosen.filterFile then
        is_taken, fault = made:take_file()
    else
        is_taken, fault = made:take(made:filter_of(chosen.filter))
    end
    if not is_taken then
        error("serialcheck: " .. name .. ": " .. fault, 0)
    end
    guards[name] = made
end

-- Has this worker look at the filter files of all guards from now on.
function guard.watch()
    for _, made in pairs(guards) do
        if made.settings.filterFile then
            ngx.timer.every(LOOK_EVERY, function(is_last)
                return is_last or made:look()
            end)
        end
    end
end

-- Judges the body of the request at hand: returns where it passes, and else ends the request. Raises an error, which nginx
-- answers with 500, where there is no guard of this name.
function guard.check(name)
    local made = guards[name] or error("serialcheck: there is no guard " .. name, 0)
    made:check()
end

-- Answers the request at hand with the counts of all guards.
function guard.show()
    ngx.header["Content-Type"] = "text/plain"
    ngx.print(counts.text())
end

return guard
