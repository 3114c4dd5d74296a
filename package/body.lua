-- Reads the body of a request within $counter_body_seconds, or closes the connection: nginx's own limit is from one
-- octet to the next. Then mends a request of LibreOffice, if $counter_mends is `on`, and counts what is deposited, if
-- $counter_day_octets isn't 0.
if ngx.var.counter_keys == "" then
    return
end

local function wait()
    ngx.sleep(tonumber(ngx.var.counter_body_seconds))
    return "late"
end

local function read()
    ngx.req.read_body()
end

local waiting = ngx.thread.spawn(wait)
local _, late = ngx.thread.wait(waiting, ngx.thread.spawn(read))
if late then
    return ngx.exit(ngx.HTTP_REQUEST_TIMEOUT)
end
ngx.thread.kill(waiting)

-- where the contents of a value with this tag begin and end; nothing if no such value of DER is there
local function contents(octets, tag, from)
    local found, length, long, longer = string.byte(octets, from, from + 3)
    local first = from + 2
    if length == 0x81 and (long or 0) >= 0x80 then
        length, first = long, from + 3
    elseif length == 0x82 and longer and long > 0 then
        length, first = 256 * long + longer, from + 4
    elseif (length or 0x80) >= 0x80 then
        return
    end
    if found == tag and first + length - 1 <= #octets then
        return first, first + length - 1
    end
end

-- LibreOffice states TRUE as 01 01 01, where DER has 01 01 FF (X.690 11.1). That is changed as the last member of a
-- TimeStampReq (RFC 3161 2.4.1), behind version, imprint and maybe policy and nonce, and nowhere else.
local function mended(octets)
    local from, to = contents(octets, 0x30, 1)
    if to ~= #octets or string.sub(octets, -3) ~= "\1\1\1" then
        return
    end
    for _, member in ipairs({ { 0x02 }, { 0x30 }, { 0x06, true }, { 0x02, true } }) do
        local _, last = contents(octets, member[1], from)
        if last then
            from = last + 1
        elseif not member[2] then
            return
        end
    end
    return from == #octets - 2 and string.sub(octets, 1, -2) .. "\255"
end

if ngx.var.counter_mends == "on" then
    local right = mended(ngx.req.get_body_data() or "")
    if right then
        ngx.req.set_body_data(right)
    end
end

-- What is under way counts as if it were kept; log.lua gives back what wasn't.
local most = tonumber(ngx.var.counter_day_octets) or 0
if most > 0 and ngx.req.get_method() == "POST" then
    local length, left = tonumber(ngx.var.content_length or 0), 86400 - ngx.time() % 86400
    local octets = ngx.shared.counter_octets:incr(ngx.var.counter_hash, length, 0, left)
    ngx.var.counter_deposited = length
    if octets > most then
        ngx.var.counter_wait = left
        return ngx.exit(429)
    end
end
