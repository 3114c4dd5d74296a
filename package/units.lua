-- Asks the units $units for a token, one after the other, until one answers something else than that it can give none
-- now, and answers the same: first the one whose turn it is or, where $units_order is `listed`, the first of them. One
-- that could give none is asked last, but for one request every five seconds, which tries it.
local REST = 5
local PASSED_ON_BY_NGINX = { connection = true, ["transfer-encoding"] = true, ["keep-alive"] = true, date = true }
local known = ngx.shared.units

-- Whether it is away, or rejects by rule 10 or 12: a TimeStampResp of status 2 whose failure bit is timeNotAvailable
-- (14) or systemFailure (25), which is its end.
local function gives_none(reply)
    return reply.status >= 500
        or reply.truncated
        or string.find(reply.body, "^0.0.\2\1\2.*\3\3\1%z\2$")
        or string.find(reply.body, "^0.0.\2\1\2.*\3\5\6%z%z%z@$")
end

-- The units in the order in which they are asked
local function ordered()
    local units, tried, last = {}, {}, {}
    for unit in string.gmatch(ngx.var.units, "%d") do
        table.insert(units, unit)
    end
    local first = 0
    if ngx.var.units_order ~= "listed" then
        first = known:incr("turn", 1, 0) % #units
    end
    for number = 1, #units do
        local unit = units[(first + number - 1) % #units + 1]
        if not known:get(unit) then
            table.insert(tried, unit)
        elseif known:add("rest-" .. unit, true, REST) then
            table.insert(tried, 1, unit)
        else
            table.insert(last, unit)
        end
    end
    for _, unit in ipairs(last) do
        table.insert(tried, unit)
    end
    return tried
end

local how = { method = ngx["HTTP_" .. ngx.req.get_method()], always_forward_body = true }
if not how.method then
    return ngx.exit(ngx.HTTP_NOT_ALLOWED)
end
local reply
for _, unit in ipairs(ordered()) do
    local answer = ngx.location.capture("/unit/" .. unit, how)
    local has_none = gives_none(answer)
    -- a rejection tells more than that a unit is away
    if not has_none or not reply or reply.status >= 500 or reply.truncated then
        reply = answer
    end
    if not has_none then
        known:delete(unit)
        break
    end
    known:set(unit, true)
    known:set("rest-" .. unit, true, REST)
end
if reply.truncated then
    return ngx.exit(ngx.HTTP_BAD_GATEWAY)
end
ngx.status = reply.status
for name, text in pairs(reply.header) do
    if not PASSED_ON_BY_NGINX[string.lower(name)] then
        ngx.header[name] = text
    end
end
ngx.print(reply.body)
