.class public final Le/Empty;
.super Ljava/lang/Object;
