.class public La/Later;
.super Ljava/lang/Object;
.implements Lx/Unlisted;
