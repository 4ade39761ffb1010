// Cedar's own extensions: each function, and each method.
permit (principal, action, resource)
when { ip("10.0.0.1").isIpv4() && ip("::1").isIpv6() && ip("127.0.0.1").isLoopback() }
when { context.ip.isMulticast() || context.ip.isInRange(ip("10.0.0.0/8")) }
when { decimal("0.5").lessThan(context.n) && context.n.lessThanOrEqual(decimal("1.5")) }
when { context.n.greaterThan(decimal("0.1")) && context.n.greaterThanOrEqual(decimal("0.2")) }
when { datetime("2026-01-01").offset(duration("1d")).durationSince(context.at).toDays() > 1 }
when { context.at.toDate() != context.at.offset(context.at.toTime()) }
when { context.d.toMilliseconds() > 1 && context.d.toSeconds() > 1 && context.d.toMinutes() > 1 }
when { context.d.toHours() > 1 };
