.class public La/Again;
.super Ljava/lang/Object;
.implements Lx/Unlisted;
