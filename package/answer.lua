-- Reads an answer as it goes out: what it tells of the key that was shown, for the limits; at /tsp, for the log,
-- `token` or the two digits of the rule that rejects; and a refusal, which becomes JSON for whoever asks for that.
local context, status = ngx.ctx, ngx.status

-- That the counter knows the key, or doesn't. Other refusals come before it looks at the key.
local function learn(is_known)
    if context.hash and is_known then
        ngx.shared.counter_keys:set(context.hash, true)
    elseif context.hash then
        ngx.shared.counter_keys:delete(context.hash)
    end
end

-- Both stand in the first octets of a TimeStampResp, behind lengths and the status, and a rejection has one text. The
-- rules 1 and 2 come before the account's.
local function read_reply(octets)
    local rule = string.match(octets, "^0.0.\2\1\2\48\9\12\7rule (%d%d)")
    local is_token = string.find(octets, "^0[\130\131]...?0\3\2\1%z")
    ngx.var.counter_reply = is_token and "token" or rule or "-"
    if rule == "03" and context.hash then
        ngx.var.counter_refused = " " .. ngx.var.remote_addr
    end
    if is_token or rule and rule > "02" then
        learn(rule ~= "03")
    end
end

local function read_refusal(word)
    if status == 403 and word ~= "" then
        learn(word ~= "NoAccount")
    end
    if context.is_json then
        ngx.arg[1] = string.format('{"status": %d, "error": "%s"}\n', status, word)
    end
end

if status >= 400 then
    context.refusal = (context.refusal or "") .. ngx.arg[1]
    if context.is_json then
        ngx.arg[1] = nil
    end
    if ngx.arg[2] then
        read_refusal(string.match(context.refusal, "^%d+ ([%w ]+)\n$") or "")
    end
elseif ngx.var.uri ~= "/tsp" then
    if ngx.arg[2] then
        learn(true)
    end
elseif #(context.octets or "") < 32 then
    context.octets = (context.octets or "") .. string.sub(ngx.arg[1], 1, 32)
    read_reply(context.octets)
end
